proved v_run 0 'status done'
./run
mkdir -p crates/v_run/src
echo '// an edit' > crates/v_run/src/main.rt
unproved 0 'status done'
./run
