proved v_run 8 'too long'
./run
