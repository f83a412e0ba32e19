echo '0 rd 0'; head -c 1048569 /dev/zero | tr '\0' '#'
