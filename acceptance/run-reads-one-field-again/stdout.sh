printf '%s\n' 'end 0 halt' 'races 0' 'record 1 1000000' 'thread 0' 'sync 0 begin 0 0' 'sync 1 alloc 0 1'
echo 'plain 0 0 rd 0 own ok'
yes 'plain 0 0 rd 0 cached ok' | head -n 99999
printf '%s\n' 'sync 2 end 0 0' 'over halt' 'done'
