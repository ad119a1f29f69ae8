unproved 5 'scenario fault line 2 rule 6'
./run < /dev/null
