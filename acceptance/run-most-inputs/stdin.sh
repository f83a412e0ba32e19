printf 'func main 0 0\nnext:\ninput\npop\njump next\ninput'; yes ' 7' | head -n 65536 | tr -d '\n'; echo
