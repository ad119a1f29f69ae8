# Threads share the cases at one start, those that take longest first, and behind them one thread has those that ask for several
# processors, but for one that takes many steps. The answers come thread by thread.
mkdir tests/long
for name in a b c d e f g; do
    echo "$name" > "tests/long/$name.in"
    printf 'status done\nsteps %d\n' "'$name" > "tests/long/$name.out"
done
touch tests/long/h.in
printf 'status done\nsteps 10001\n' > tests/long/h.out
for name in b f h; do
    printf -- '--cpus\n2\n' > "tests/long/$name.args"
done
mkdir -p crates/v_run/src
touch crates/v_run/src/main.rt
stand_in bin/rt << 'END'
cat > "${0%/*}/given"
for letter in $(cat "${0%/*}/order"); do
    printf '0 %d\nstatus done\nsteps %d\n' "$((21 + (letter > 99)))" "$letter"
done
echo 'run=ended status=0 runners=1 proved=no' >&2
END
for processors in 3 1; do
    stand_in bin/getconf <<< "echo $processors"
    if ((processors == 3)); then echo 103 99 101 97 100 102 98; else echo 103 101 100 99 97 102 98; fi > bin/order
    tests/run --unproved long
    tr '\n' ' ' < bin/given
    echo
done
