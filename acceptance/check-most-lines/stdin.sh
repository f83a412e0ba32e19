yes '0 rd 0' | head -n 16384
