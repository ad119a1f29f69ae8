proved v_run 1 'status stalled'
./run
echo "status $?"
proved v_run 2 'status spent'
./run
