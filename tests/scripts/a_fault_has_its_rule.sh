proved v_run 5 'scenario fault line 5 rule 2'
./run
