#!/usr/bin/env bash
# Usage: bench/calls.sh [PROGRAM]
# Counts the instructions that calls of the board take, by valgrind's callgrind, which no other work on the machine disturbs:
# - a row that is unloaded and loaded again where 1,024 are loaded, a thread where 64 are, and a row that displaces another
#   where the caches hold 6 kernels, 5 spaces, 5 threads and 6 rows;
# - a completed call that grants rights on a group (9), and calls that make a signal row and take it out again (6 and 7),
#   where 1,024 and where 65,536 rows are loaded and nothing leaves. Of these the same steps with a call that does nothing
#   are taken off;
# - a row that displaces another in a full cache of 32,100 rows, where none is locked and where 32,000 are;
# - the declaration of a row that takes most, beside the middle one, of 10,000 on a new board and of 1,500 behind 130,500 others. Room doubles
#   about each power of two, as 131,072: what is moved then as it stands, by memcpy or memmove, isn't counted.
# Counted are the operations alone, without the reading of their lines and the writing of answers. A declaration is counted by itself; the
# count of any other call is the difference between a long list and a shorter one. PROGRAM is a v_drive to count instead of the one that is
# built, as an older one.
#
# The bars: 30,000 for the row, 18,000 for the thread, 20,000 for the displacing row; 3 for the ratios, 2 for that of locked
# rows, and 20 for that of a declaration. The program that was built on 2026-11-30 takes 12,600, 7,600 and 5,500, with ratios of 1.0
# and 1.5, and 1.1 for locked rows; one that was built without proofs on 2026-12-02 has 1.9 and 1.7 for a declaration.
set -euo pipefail
script=bench/calls.sh
top="$(cd "$(dirname "$0")/.." && pwd)"
source "$top/scripts/program.sh"
take_help "$@"
command -v valgrind > /dev/null || { echo "$script: valgrind isn't on the path" >&2; exit 1; }
place="$(mktemp -d)"
trap 'rm -rf "$place"' EXIT
if [[ -n ${1:-} ]]; then
    counted_program="$(realpath "$1")"
else
    "$top/build"
    find_proved v_drive
    counted_program="$proved"
fi

# Prints how many instructions the operations of the file list take, and leaves their answers in the file answers.
count() {
    valgrind --tool=callgrind --toggle-collect='cache_board::driving::perform' --callgrind-out-file=/dev/null \
        "$counted_program" < "$place/list" 2> "$place/said" > "$place/answers"
    sed -n 's/.*Collected : //p' "$place/said"
}

# per_cycle MAKER CYCLES ARGUMENT..: instructions of one cycle, as the list has so many more of them.
per_cycle() {
    local maker="$1" cycles="$2" few many
    shift 2
    "$maker" 0 "$@" > "$place/list"
    few=$(count)
    "$maker" "$cycles" "$@" > "$place/list"
    many=$(count)
    ! grep -q '^refused\|^operation fault\|^scenario fault' "$place/answers" || { echo "$script: $maker is refused something" >&2; exit 1; }
    echo $(((many - few) / cycles))
}

machine() {
    echo 'mem 16'
    [[ -z ${1:-} ]] || echo "caps $1"
    echo 'kernel 0'
    for group in $(seq 0 15); do echo "right 0 $group rw"; done
    echo 'space 0 0'
}

# rows CYCLES LOADED: so many rows are loaded; in a cycle the first leaves and comes back.
rows() {
    machine
    awk -v cycles="$1" -v rows="$2" 'BEGIN {
        for (i = 0; i < rows; i++) print "map 0", i, i % 2048, "r"
        print "end\nseal\nload space 0 K0.0 0"
        for (i = 0; i < rows; i++) print "load row", 0, "K0.0 S0.1", i, "-"
        serial = 2
        for (i = 0; i < cycles; i++) {
            print "unload 0 K0.0 M0." serial
            print "load row", 0, "K0.0 S0.1", 0, "-"
            serial = rows + 2 + i
        }
    }'
}

# threads CYCLES LOADED: the same of threads.
threads() {
    machine
    awk -v cycles="$1" -v threads="$2" 'BEGIN {
        for (i = 0; i < threads; i++) print "thread", i, 0, 0
        print "end\nseal\nload space 0 K0.0 0"
        for (i = 0; i < threads; i++) print "load thread 0 K0.0 S0.1", i
        serial = 2
        for (i = 0; i < cycles; i++) {
            print "unload 0 K0.0 T0." serial
            print "load thread 0 K0.0 S0.1 0"
            serial = threads + 2 + i
        }
    }'
}

# displaced CYCLES: six rows fill their cache; in a cycle the next of twelve comes.
displaced() {
    machine '6 5 5 6'
    awk -v cycles="$1" 'BEGIN {
        for (i = 0; i < 12; i++) print "map 0", i, i, "r"
        print "end\nseal\nload space 0 K0.0 0"
        for (i = 0; i < 6 + cycles; i++) print "load row", 0, "K0.0 S0.1", i % 12, "-"
    }'
}

# locked CYCLES LOCKED: a cache of 32,100 rows is full, of which so many are locked; in a cycle the next row comes.
locked() {
    printf '%s\n' 'mem 1' 'caps 16 64 256 32100' 'kernel 0 locks 1 0 0 32000' 'right 0 0 rw' 'space 0 0'
    awk -v cycles="$1" -v locked="$2" 'BEGIN {
        for (i = 0; i < 32100 + cycles; i++) print "map 0", i, 0, "r"
        print "end\nseal\nload space 0 K0.0 0"
        for (i = 0; i < 32100 + cycles; i++) {
            print "load row", 0, "K0.0 S0.1", i, "-"
            if (i < locked) print "lock 0 K0.0 M" i "." i + 2
        }
    }'
}

# called CYCLES ROWS CALLS: a thread of kernel 0 makes two calls in a cycle, of the numbers and arguments that CALLS tells, where so
# many rows of frame 1 are loaded, in a space of kernel 1.
called() {
    machine
    echo 'kernel 1'
    echo 'right 1 0 rw'
    echo 'space 1 1'
    echo 'thread 0 0 0'
    echo 'map 0 0 0 x'
    awk -v rows="$2" 'BEGIN { for (i = 0; i < rows - 2; i++) print "map 1", i, 1, "r" }'
    echo 'code 0 0'
    case "$3" in
        grants) printf '%s\n' again: 'addi a0, zero, 1' 'addi a1, zero, 0' 'addi a2, zero, 3' 'addi a3, zero, 0' 'addi a7, zero, 9' ecall \
            'addi a0, zero, 1' 'addi a7, zero, 9' ecall ;;
        signals) printf '%s\n' again: 'addi a0, zero, 16' 'addi a1, zero, 1' 'addi a2, zero, 1' 'addi a3, zero, 1' 'addi a7, zero, 6' ecall \
            'addi a0, zero, 16' 'addi a7, zero, 7' ecall ;;
        nothing) printf '%s\n' again: 'addi a0, zero, 16' 'addi a1, zero, 1' 'addi a2, zero, 1' 'addi a3, zero, 1' 'addi a7, zero, 4' ecall \
            'addi a0, zero, 16' 'addi a7, zero, 4' ecall ;;
    esac
    printf '%s\n' 'jal zero, again' endcode end seal 'load kernel 0 K0.0 1' 'load space 0 K0.0 0' 'load space 0 K1.1 1' \
        'load thread 0 K0.0 S0.2 0'
    awk -v cycles="$1" -v rows="$2" 'BEGIN {
        print "load row", 0, "K0.0 S0.2", 0, "-"
        for (i = 0; i < rows - 2; i++) print "load row", 0, "K1.1 S1.3", i, "-"
        for (i = 0; i < cycles; i++) {
            for (j = 0; j < 6; j++) print "heal 0 0"
            print "complete 0 K0.0 T0.4"
            for (j = 0; j < 3; j++) print "heal 0 0"
            print "complete 0 K0.0 T0.4\nheal 0 0"
        }
    }'
}

# declared ROWS MORE: so many rows are declared in the scenario, and then so many more, each by an operation.
declared() {
    machine
    awk -v rows="$1" -v more="$2" 'BEGIN {
        for (i = 0; i < rows; i++) print "map 0", i, i % 2048, "r"
        print "end"
        for (; i < rows + more; i++) print "declare map 0", i, i % 2048, "r -"
    }'
}

# declarations ROWS MORE: what the declarations of such a list take that are operations, from the one that takes least on. The profile
# has a part for each, in which a function is named where it first stands, and a line behind `calls=` counts what was called once more.
declarations() {
    declared "$1" "$2" > "$place/list"
    valgrind --tool=callgrind --toggle-collect='cache_board::driving::perform' --dump-after='cache_board::driving::perform' \
        --combine-dumps=yes --callgrind-out-file="$place/profile" "$counted_program" < "$place/list" 2> "$place/said" > "$place/answers"
    [[ $(grep -c '^did$' "$place/answers") == "$2" ]] || { echo "$script: a declaration is refused" >&2; exit 1; }
    awk '
        /^part:/ { split("", known); moves = moved = 0 }
        /^c?fn=/ {
            name = $0
            sub(/^c?fn=/, "", name)
            number = name
            sub(/ .*/, "", number)
            if (name != number) known[number] = name
            if (/^fn=/) moves = known[number] ~ /mem(cpy|move)/
        }
        /^calls=/ { getline; next }
        /^[-+*0-9]/ && moves { moved += $2 }
        /^totals:/ && $2 > 0 { print $2 - moved }' "$place/profile" | sort -n
    rm "$place/profile"
}

# dearest ROWS MORE: the middle one and the last of these.
dearest() {
    declarations "$1" "$2" | awk -v rows="$1" -v more="$2" '
        { took[NR] = $1 }
        END {
            if (NR != more) { print NR " declarations were counted, and not " more; exit 1 }
            middle = took[int((NR + 1) / 2)]
            printf "declaration: of %d behind %d rows the middle one takes %d instructions, the dearest %d\n", NR, rows, middle, took[NR]
            printf "ratio %.2f, at most 20\n", took[NR] / middle
        }'
}

# What a cycle takes whose calls do nothing, by the number of rows.
declare -A steps=()

# calls WHAT: what two such calls take with few rows and with many, beyond calls that do nothing.
calls() {
    local rows each=()
    for rows in 1024 65536; do
        [[ -n ${steps[$rows]:-} ]] || steps[$rows]=$(per_cycle called 20 "$rows" nothing)
        each+=($(($(per_cycle called 20 "$rows" "$1") - ${steps[$rows]})))
        echo "$1: ${each[-1]} instructions for two calls where $rows rows are loaded"
    done
    awk -v few="${each[0]}" -v many="${each[1]}" 'BEGIN { print "ratio", many / few }'
}

echo "row: $(per_cycle rows 1000 1024) instructions to unload it and load it again"
echo "thread: $(per_cycle threads 1000 64) instructions to unload it and load it again"
echo "displacing row: $(per_cycle displaced 1000) instructions to load it"
calls grants
calls signals
free_to_go=$(per_cycle locked 1000 0)
kept=$(per_cycle locked 1000 32000)
echo "displacing row of 32100: $free_to_go instructions to load it, and $kept where 32000 are locked"
awk -v free="$free_to_go" -v kept="$kept" 'BEGIN { print "ratio", kept / free }'
dearest 0 10000
dearest 130500 1500
