proved v_run 3
./run < /dev/null
