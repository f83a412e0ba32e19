echo 'func main 0 0'; yes '  push 1' | head -n 257; echo '  halt'
