for k in $(seq 0 63); do echo "class c$k 1 1"; done; echo 'func main 0 0'; echo '  halt'
