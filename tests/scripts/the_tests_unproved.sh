# rt answers all cases at one start: one as is due, one with another output, one with another status, and one but in part.
mkdir tests/few
for name in a b c d; do
    echo "$name" > "tests/few/$name.in"
    echo "answer to $name" > "tests/few/$name.out"
done
printf -- '--steps\n5\n' > tests/few/b.args
mkdir -p crates/v_run/src
touch crates/v_run/src/main.rt
stand_in bin/getconf <<< 'echo 1'
stand_in bin/rt << 'END'
[ "$1 $2 $3" = 'try --steps 1' ] && [ "${PWD##*/}" = many_cases ] || exit 2
cat > "${0%/*}/given"
printf '%s %d\n%s\n' 0 12 'answer to a' 0 15 'no such answer' 5 12 'answer to c' 0 12 'ans'
echo 'run=ended status=0 runners=1 proved=no' >&2
END
tests/run --unproved few/
echo "status $?"
cat bin/given
