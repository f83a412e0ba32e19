echo 'func main 0 0'; echo halt; head -c 1048558 /dev/zero | tr '\0' '#'
