#!/usr/bin/env bash
# Usage: bench/runs.sh [PEERS [PROGRAM]]
# Times whole runs of the program, from its start to its report, and prints each beside its bar:
# - a million steps where 16,000 threads wait for a signal and one yields, beside 16 that wait: at most 3 times;
# - a scenario of 262,144 rows in 4 MiB, beside the same text without its last line, which is read and answered by its first fault:
#   at most 4 times; and beside half as many rows: at most 2.4 times;
# - a large scenario in the smallest caches, beside the greatest, and how many descriptors were loaded then;
# - how many bytes of memory a step takes in mode journal where each step is a healing step of its own.
# PEERS is a folder with a plain interpreter in C, rvi_paged, and loops that it reads. Where it is given, a million steps of each loop
# are timed in turn with it: alu at least 0.85 of the peer's speed, mix and mem 0.8, stride, which goes over 64 pages, 0.3; and a
# greeting, which takes at most 3 times the peer's whole time.
#
# What is timed is the processor's time for the whole program, the shortest of nine runs. Where valgrind is on the path, instructions are
# counted too, which no other work on the machine changes: those that make the owners of 262,144 rows, at most as many as those with
# which the board's tables declare the rows; these beside half as many rows, at most 2.2 times; and, where PEERS is given, from one thread
# call to the next, with the nine steps between them, at most 10,000.
# PROGRAM is a v_run to time instead of the one that ./build leaves, as an older one. Fails where a bar isn't met.
set -u
unset CDPATH
script=bench/runs.sh
top="$(cd "$(dirname "${BASH_SOURCE[0]}")/.." && pwd)"
source "$top/scripts/program.sh"
take_help "$@"
peers=${1-}
if [ -n "${2-}" ]; then
    proved=$(realpath -- "$2")
else
    want_proved v_run
fi
if [ -n "$peers" ] && ! [ -x "$peers/rvi_paged" ]; then
    say "there is no interpreter $peers/rvi_paged"
    exit 1
fi
place="$(mktemp -d)"
trap 'rm -rf "$place"' EXIT
failed=0

# ---- the texts

# head_of SPACES [CAPS]: what stands before the threads.
head_of() {
    echo 'mem 1'
    [ -z "${2-}" ] || echo "caps $2"
    echo 'kernel 0'
    echo 'right 0 0 rw'
    seq 0 $(($1 - 1)) | sed 's/.*/space & 0/'
}

# waiting THREADS: so many threads wait, and one more yields again and again.
waiting() {
    head_of 1
    seq 0 $(($1 - 1)) | sed 's/.*/thread & 0 0/'
    printf '%s\n' "thread $1 0 8" 'map 0 0 0 x' 'code 0 0' 'addi a7, zero, 3' 'ecall' 'addi a7, zero, 4' 'again:' 'ecall' \
        'jal zero, again' endcode end
}

# rows NUMBER: so many rows in 32 spaces, and a thread that ends with its first step.
rows() {
    head_of 32
    echo 'thread 0 0 0'
    awk -v rows="$1" 'BEGIN { for (i = 0; i < rows; i++) print "map", i % 32, int(i / 32), 0, "r" }'
    echo end
}

# healed: each step of a thread stores the last word of a message slot, on pages that all are one frame.
healed() {
    head_of 1
    echo 'thread 0 0 0 a0 0x800000'
    seq 0 1023 | sed 's/.*/map 0 & 0 x/'
    echo 'map 0 2048 1 rwm'
    awk 'BEGIN { for (i = 0; i < 1024; i++) print "word 0", 4 * i, "02052e23" }'
    echo end
}

# ---- their times

# taken NUMBER PROGRAM: sets once to the milliseconds of processor's time in which the program answers the text so many times in a row.
taken() {
    local user system number=$1 TIMEFORMAT='%3U %3S'
    read -r user system < <({ time for ((run = 0; run < number; run++)); do "$2" < "$place/text" > "$place/answer" 2> /dev/null; done; } 2>&1)
    once=$((10#${user/./} + 10#${system/./}))
    ((once > 0)) || once=1
}

# shortest NUMBER PROGRAM: sets time to the shortest of nine such.
shortest() {
    time=
    for _ in 1 2 3 4 5 6 7 8 9; do
        taken "$1" "$2"
        if [ -z "$time" ] || ((once < time)); then time=$once; fi
    done
}

# ratio NEW OLD: the ratio, to a hundredth.
ratio() {
    printf '%d.%02d' "$(($1 / $2))" "$(($1 * 100 / $2 % 100))"
}

# judge WORDS NEW OLD MOST: prints the ratio beside its bar, which is given in hundredths, and notes where it is above.
judge() {
    local said=
    if (($2 * 100 > $3 * $4)); then
        said=', and is above it'
        failed=1
    fi
    echo "$1: $(ratio "$2" "$3"), at most $(ratio "$4" 100)$said"
}

# begins STATUS: notes where the answer doesn't begin so.
begins() {
    local first
    read -r first < "$place/answer"
    if [ "$first" != "status $1" ]; then
        echo "the answer begins with '$first', and 'status $1' is due"
        failed=1
    fi
}

waiting 16 > "$place/text"
shortest 1 "$proved"
begins spent
few=$time
waiting 16000 > "$place/text"
shortest 1 "$proved"
begins spent
echo "a million steps: $few ms where 16 threads wait, $time ms where 16,000 do"
judge '16,000 threads that wait, beside 16' "$time" "$few" 300

rows 131072 > "$place/text"
shortest 1 "$proved"
begins 'done'
half=$time
rows 262144 > "$place/text"
bytes=$(wc -c < "$place/text")
shortest 1 "$proved"
begins 'done'
whole=$time
sed -i '$d' "$place/text"
shortest 1 "$proved"
echo "262,144 rows in $bytes bytes: $whole ms, half as many $half ms, reading alone $time ms"
judge 'the run beside reading' "$whole" "$time" 400
judge 'twice the rows' "$whole" "$half" 240

# taken_by FUNCTION: how many instructions the function takes, with all that it calls.
taken_by() {
    callgrind_annotate --inclusive=yes --threshold=100 "$place/profile" | awk -v name=":$1" '
        index($0, name " ") { gsub(",", "", $1); print $1; exit }'
}

if hash valgrind 2> /dev/null; then
    for number in 131072 262144; do
        rows "$number" > "$place/text"
        valgrind --tool=callgrind --callgrind-out-file="$place/profile" "$proved" < "$place/text" > "$place/answer" 2> /dev/null
        begins 'done'
        fewer=${declared-}
        declared=$(taken_by desc_tables::tables::Tables::declare)
        owned=$(taken_by owners::owners::Owners::new)
        echo "$number rows: ${declared:-no} instructions to declare them, ${owned:-no} to make their owners"
    done
    if [ -n "$declared" ] && [ -n "$owned" ] && [ -n "$fewer" ]; then
        judge 'owners beside declarations' "$owned" "$declared" 100
        judge 'twice the declarations' "$declared" "$fewer" 220
    else
        failed=1
    fi
fi

cp -- "$top/tests/gen/three_pipelines_in_the_smallest_caches.in" "$place/text"
shortest 1 "$proved"
begins 'done'
small=$time
loads=$("$proved" --mode journal < "$place/text" | grep -c '^loaded ')
sed -i 's/^caps .*/caps 16 64 256 65536/' "$place/text"
shortest 1 "$proved"
begins 'done'
echo "a large scenario: $small ms in the smallest caches, with $loads loads, $time ms in the greatest: $(ratio "$small" "$time") times"

healed > "$place/text"
if [ -x /usr/bin/time ]; then
    for steps in 500000 1000000; do
        /usr/bin/time -f %M -o "$place/memory" "$proved" --mode journal --steps "$steps" < "$place/text" > "$place/answer"
        memory[steps / 500000]=$(tail -n 1 "$place/memory")
    done
    ran=$(grep -c '^ran 0 1 cpu 0$' "$place/answer")
    if ((ran != 1000000)); then
        echo "$ran steps were healed, and a million are due"
        failed=1
    fi
    echo "mode journal with each step healed: $(((memory[2] - memory[1]) * 1024 / 500000)) bytes of memory a step"
fi

# beside_peer NAME [MOST]: times the text ten times in a row, in turn with the peer, of whose time the program takes at most so many
# hundredths.
beside_peer() {
    local peer=
    time=
    for _ in 1 2 3 4 5 6 7 8 9; do
        taken 10 "$peers/rvi_paged"
        if [ -z "$peer" ] || ((once < peer)); then peer=$once; fi
        taken 10 "$proved"
        if [ -z "$time" ] || ((once < time)); then time=$once; fi
    done
    echo "$1, ten times: $time ms, the peer $peer ms"
    [ -z "${2-}" ] || judge "$1 beside the peer" "$time" "$peer" "$2"
}

if [ -n "$peers" ]; then
    while read -r name most; do
        cp -- "$peers/loops/$name.scn" "$place/text"
        beside_peer "$name" "$most"
    done <<< $'alu 117\nmix 125\nmem 125\nstride 333\ncalls'
    cp -- "$top/examples/hello.scenario" "$place/text"
    beside_peer hello 300
    if hash valgrind 2> /dev/null; then
        cp -- "$peers/loops/calls.scn" "$place/text"
        for steps in 10000 20000; do
            counted[steps / 10000]=$(valgrind --tool=callgrind --callgrind-out-file=/dev/null "$proved" --steps "$steps" \
                < "$place/text" 2>&1 > /dev/null | sed -n 's/.*Collected : //p')
        done
        echo "instructions from one thread call to the next: $(((counted[2] - counted[1]) / 1000)), at most 10000"
        (((counted[2] - counted[1]) / 1000 <= 10000)) || failed=1
    fi
fi
exit "$failed"
