# rt can't build the program, and says so.
mkdir tests/few
touch tests/few/a.in tests/few/a.out
mkdir -p crates/v_run/src
touch crates/v_run/src/main.rt
stand_in bin/rt << 'END'
echo "$*: an error in the program" >&2
echo 'run=none proved=no' >&2
exit 2
END
tests/run --unproved few
