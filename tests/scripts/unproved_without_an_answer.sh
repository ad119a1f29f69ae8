mkdir -p crates/v_run
./run < /dev/null
