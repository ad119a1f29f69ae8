proved v_run 6
./run
