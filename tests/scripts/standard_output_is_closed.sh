proved v_run 0 'status done'
./run >&-
