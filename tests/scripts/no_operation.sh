proved v_drive 5 'loaded K0.0' 'operation fault line 9'
./drive
proved v_drive 5 'scenario fault line 1 rule 24'
./drive
