#!/usr/bin/env bash
# Usage: bench/scenario_read.sh
# Times how long the proved program reads texts of three sizes, each twice the one before: words, rows, threads, rights, code
# and executables, and texts that are made to be slow, as blank lines, one long line, or rows all of one frame. It fails where
# twice the text, or twice the words that a short executable stands for, takes more than 2.4 times the time, which is judged
# from the first size to the third (5.8 times); and where 262,144 words in 4 MiB take more than 1.5 seconds.
#
# No text has a last line `end`, so each is answered by its first fault as soon as it is read, and no machine runs. What is
# timed is the processor's time for the whole program, the shortest of nine runs; what takes less than 50 ms isn't judged. It
# wants the program that ./build leaves.
set -u
unset CDPATH
script=bench/scenario_read.sh
top="$(cd "$(dirname "${BASH_SOURCE[0]}")/.." && pwd)"
source "$top/scripts/program.sh"
take_help "$@"
want_proved v_run
place="$(mktemp -d)"
trap 'rm -rf "$place"' EXIT
failed=0

# ---- the texts

# lines NUMBER HEAD BODY [FOOT]: what awk's HEAD prints, BODY so many times with i from 0 on, and FOOT.
lines() {
    awk -v n="$1" "BEGIN { $2; for (i = 0; i < n; i++) { $3 }; ${4-} }"
}

# repeated NUMBER BYTES: the bytes again and again, so many bytes in all.
repeated() {
    yes "$2" | tr -d '\n' | head -c "$1"
}

machine='print "mem 16\nkernel 0\nright 0 0 rw\nspace 0 0\nthread 0 0 0"'
many_spaces='print "mem 16\nkernel 0"; for (s = 0; s < 32; s++) print "space", s, 0'
thread_owners='; for (k = 1; k < n / 16; k++) print "kernel", k; for (s = 1; s < n / 4; s++) print "space", s, int(s / 4)'

words() { lines "$1" "$machine" 'if (i % 2 == 0) printf "word %d %d %08x", i / 1024, 4 * (i % 1024), i; else printf " %08x\n", i'; }
rows() { lines "$1" "$many_spaces" 'print "map", i % 32, int(i / 32), 0, "r"'; }
rows_of_one_space() { lines "$1" "$machine" 'print "map", 0, i, i % 2048, "r"'; }
rows_downwards() { lines "$1" "$machine" 'print "map", 0, n - i, 0, "r"'; }
message_rows() { lines "$1" "$machine" 'print "map", 0, i, 0, "rwm"'; }
signal_rows() { lines "$1" "$machine" 'print "map", 0, i, int(i / 4), "r signal 0"'; }
threads() { lines "$1" "$machine$thread_owners" 'if (i > 0) print "thread", i, int(i / 4), 0'; }
rights() { lines "$1" "$machine" 'print "right 0", i % 16, "rw"'; }

code() { lines "$1" "$machine" 'if (i % 1024 == 0) print "code", i / 1024, 0; print "addi a0, a0, 1"; if (i % 1024 == 1023) print "endcode"'; }
jumps() { lines "$1" "$machine" 'if (i % 512 == 0) { print "code", i / 512, 0; to = i }; printf "l%d:\njal x0, l%d\n", i, to; if (i % 512 == 511) print "endcode"'; }
labels() { lines "$1" "$machine; print \"code 0 0\"" 'printf "l%d:\n", i' 'print "jal x0, l0\nendcode"'; }
code_without_end() { lines "$1" "$machine; print \"code 0 0\"" 'print "x"'; }

# executable HEADERS: where one begins, and its first 52 bytes; the program headers are so many, as two bytes in digits.
executable() {
    printf 'mem 16\nkernel 0\nspace 0 0\nelf 0 0 0\n7f454c46010101000000000000000000\n'
    printf '0200f30001000000000001003400000000000000000000003400%s%s000000000000\n' 2000 "$1"
}

# in_digits NUMBER BYTES: so many bytes, the lowest first, as digits.
in_digits() {
    local left=$1 digits=
    for ((byte = 0; byte < $2; byte++)); do
        digits+=$(printf '%02x' $((left % 256)))
        left=$((left / 256))
    done
    printf '%s' "$digits"
}

# part OFFSET ADDRESS FILE SIZE: a program header, all in digits.
part() {
    printf '01000000%s%s%s%s%s0500000000100000\n' "$1" "$2" "$2" "$3" "$4"
}

# Two words of memory for each eight bytes, of which the file has none, or all.
executable_memory() {
    executable 0100
    part 00000000 00000100 00000000 "$(in_digits "$1" 4)"
    echo endelf
}
executable_bytes() {
    executable 0100
    part 54000000 00000100 "$(in_digits "$1" 4)" "$(in_digits "$1" 4)"
    lines "$(($1 / 64))" 'line = sprintf("%0128d", 7)' 'print line'
    echo endelf
}
executable_notes() {
    executable "$(in_digits "$1" 2)"
    lines "$1" 'line = "04000000" sprintf("%056d", 0)' 'print line' 'print "endelf"'
}
# The number of a part in decimal digits is that of its page in hexadecimal ones.
executable_parts() {
    executable "$(in_digits "$1" 2)"
    lines "$1" 1 'p = sprintf("%04d", i); at = "00" substr(p, 4, 1) "0" substr(p, 2, 2) "0" substr(p, 1, 1)
        print "0100000000000000" at at "00000000040000000500000000100000"' 'print "endelf"'
}
executable_without_end() { lines "$1" 'print "mem 16\nkernel 0\nspace 0 0\nelf 0 0 0"' 'print "00ff"'; }

blank_lines() { head -c "$1" /dev/zero | tr '\0' '\n'; }
line_of_spaces() { repeated "$1" ' '; }
comment() { repeated "$1" '#'; }
long_field() { repeated "$1" 'a'; }
many_fields() { repeated "$1" 'a '; }
many_zeros() { printf 'mem '; repeated "$1" 0; }
words_in_a_line() { lines "$1" 'print "mem 16\nkernel 0"; printf "word 0 0"' 'printf " %08x", i'; }

# ---- their times

# Sets time to the processor's milliseconds for the text, and answer to what is written.
time_once() {
    local user system TIMEFORMAT='%3U %3S'
    read -r user system < <({ time "$proved" < "$place/text" > "$place/answer" 2> /dev/null; } 2>&1)
    time=$((10#${user/./} + 10#${system/./}))
    answer=$(< "$place/answer")
}

# times NEW OLD: the ratio, to a tenth.
times() {
    printf '%d.%d times' "$(($1 / $2))" "$(($1 * 10 / $2 % 10))"
}

# read_texts NAME RULE NUMBER NUMBER NUMBER: the texts of these sizes, each of which breaks that rule first. Sets last to the
# time of the third.
read_texts() {
    local name=$1 rule=$2 number bytes time answer before= first= said
    shift 2
    for number; do
        "$name" "$number" > "$place/text" 2> /dev/null
        bytes=$(wc -c < "$place/text")
        last=
        for _ in 1 2 3 4 5 6 7 8 9; do
            time_once
            if [ -z "$last" ] || ((time < last)); then last=$time; fi
        done
        said=
        if [ -n "$before" ]; then said=", $(times "$last" "$before")"; fi
        if [[ $answer != "scenario fault line "*" rule $rule" ]]; then
            said+=", and it isn't answered by rule $rule: $answer"
            failed=1
        fi
        echo "$name $number, $bytes bytes: $last ms$said"
        before=$((last > 0 ? last : 1))
        first=${first:-$before}
    done
    if ((last >= 50 && last * 10 > 58 * first)); then
        echo "$name: $(times "$last" "$first") for four times the text"
        failed=1
    fi
}

read_texts words 24 65536 131072 262144
if ((last > 1500)); then
    echo '262,144 words take more than 1.5 seconds'
    failed=1
fi
read_texts rows 24 65536 131072 262144
read_texts rows_of_one_space 24 50000 100000 200000
read_texts rows_downwards 24 60000 120000 240000
read_texts message_rows 24 50000 100000 200000
read_texts signal_rows 24 2048 4096 8192
read_texts threads 24 4096 8192 16384
read_texts rights 24 70000 140000 280000
read_texts code 24 65536 131072 262144
read_texts jumps 24 40960 81920 163840
read_texts labels 24 100000 200000 400000
read_texts code_without_end 20 500000 1000000 2000000
read_texts executable_memory 24 2097152 4194304 8388608
read_texts executable_bytes 24 491520 983040 1966080
read_texts executable_notes 24 8192 16384 32768
read_texts executable_parts 24 512 1024 2048
read_texts executable_without_end 24 200000 400000 800000
read_texts blank_lines 24 1048576 2097152 4194304
read_texts line_of_spaces 24 1048576 2097152 4194304
read_texts comment 24 1048576 2097152 4194304
read_texts long_field 2 1048576 2097152 4194304
read_texts many_fields 2 1048576 2097152 4194304
read_texts many_zeros 4 1048576 2097152 4194300
read_texts words_in_a_line 15 100000 200000 400000
exit "$failed"
