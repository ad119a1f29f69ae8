# Of three cases one is answered as is due; a file belongs to none.
mkdir tests/few
proved v_run 1 'status stalled' 'steps 2' 'thread 0 call 3 out 0'
printf 'status stalled\nsteps 2\nthread 0 call 3 out 0\n' | tee tests/few/a.out tests/few/c.out > /dev/null
printf 'status stalled\nsteps 3\nthread 0 call 3 out 0\n' > tests/few/b.out
touch tests/few/{a,b,c}.in tests/few/d.out
echo 1 | tee tests/few/a.status tests/few/b.status > /dev/null
tests/run few
echo "status $?"
rm tests/few/[bcd].*
tests/run few
