# Who reads takes one line of many, or is gone before the first.
proved v_run 2
printf 'status spent\n' > bin/v_run.answer
head -c 60000 /dev/zero | tr '\0' 'x' >> bin/v_run.answer
{ ./run || echo "status $?" >&2; } | head -n 1
proved v_run 0 'status done'
sed -i 's/^cat bin/sleep 1; cat bin/' out/proved/*/v_run
{ ./run || echo "status $?" >&2; } | true
