proved v_run 10 'journal yes' 'status done'
./run --mode check
