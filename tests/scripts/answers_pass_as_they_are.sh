# Bytes of an output that are no text, a last line without its line feed, and what the program reads.
proved v_run 0 'status done'
printf 'status done\n\0\377\n\n  two  spaces\r\nno line feed' > bin/v_run.answer
./run > written
cmp written bin/v_run.answer && echo same
stand_in out/proved/*/v_run << 'END'
printf '%s.' "$@" && cat
END
printf 'a\0b\n\nc' | ./run --mode=gen --seed '7 8' '' | od -An -c
./run <&- 2> /dev/null | od -An -c
