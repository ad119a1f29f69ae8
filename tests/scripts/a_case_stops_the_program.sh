# The unproved program stops at the second of three cases. Another start shows at which, and a third one answers the others.
mkdir tests/few
for name in a b c; do
    echo "$name" > "tests/few/$name.in"
    echo "answer to $name" > "tests/few/$name.out"
done
mkdir -p crates/v_run/src
touch crates/v_run/src/main.rt
stand_in bin/getconf <<< 'echo 2'
stand_in bin/rt << 'END'
echo start >> "${0%/*}/starts"
cat > "${0%/*}/given"
if grep -q b "${0%/*}/given"; then
    printf '%s\n' "the end of the program's standard error:" '| case 0' '| case 1' >&2
    [ "$(head -n 1 "${0%/*}/given")" = 1 ] || echo '| case 2' >&2
    printf '%s\n' 'checked: fault kind=overflow' 'run=fault proved=no' >&2
    exit 4
fi
printf '0 12\n%s\n' 'answer to a' 'answer to c'
printf '%s\n' 'case 0' 'case 2' 'run=ended status=0 runners=1 proved=no' >&2
END
tests/run --unproved few/
echo "status $?"
wc -l < bin/starts
cat bin/given
