echo 'func main 0 0'; echo halt; head -c 1048557 /dev/zero | tr '\0' '#'
