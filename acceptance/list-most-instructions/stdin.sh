printf "func main 0 0\n"; for i in $(seq 1 2047); do echo "  nop"; done; printf "  halt\nfunc f1 0 0\n"; for i in $(seq 1 2047); do echo "  nop"; done; echo "  halt"
