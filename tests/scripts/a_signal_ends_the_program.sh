proved v_run 0
stand_in out/proved/*/v_run << 'END'
echo $$ > bin/pid
echo 'status done'
exec sleep 60
END
./run > written &
until [ -s written ]; do sleep 0.01; done
kill -TERM $!
wait $!
echo "status $?"
kill -0 "$(< bin/pid)" 2> /dev/null || echo 'the program is gone'
