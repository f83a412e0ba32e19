echo 'func main 0 0'; echo 'L0:'; echo '  nop'; echo '  halt'; echo 'L2:'; echo '  pop'; echo '  halt'; echo 'L4:'; for k in $(seq 17); do echo '  catch L0 L4 L2'; done
