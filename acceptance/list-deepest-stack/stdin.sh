echo 'func main 0 0'; yes '  push 1' | head -n 256; echo '  halt'
