# The unproved program stops at each case, and isn't begun more than three times.
mkdir tests/few
for name in a b c d; do
    touch "tests/few/$name.in" "tests/few/$name.out"
done
mkdir -p crates/v_run/src
touch crates/v_run/src/main.rt
stand_in bin/getconf <<< 'echo 1'
stand_in bin/rt << 'END'
printf '%s\n' "| case $(sed -n 3p)" 'checked: fault kind=overflow' 'run=fault proved=no' >&2
exit 4
END
tests/run --unproved few/
echo "status $?"
