proved v_run 12 'journal fault line 3'
./run --mode check
