unproved 1 'status stalled' 'steps 2'
./run < /dev/null
