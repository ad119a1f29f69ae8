proved v_run 11 'journal no at 12 point 4'
./run --mode check
