seq 1 16384 | sed 's/$/ ok/'; echo 'races 0'
