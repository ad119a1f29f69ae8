#!/usr/bin/env bash
# Usage: bench/board.sh
# Times calls of the board by hand, as v_drive makes them: a row that is unloaded and loaded again where 1,024 and where 65,536
# rows are loaded, and a thread that is checked out and given back where 16 and where 16,000 threads stand. A call's time is
# the difference between a long list and one without those calls. The ratios should be small: a row's cost is logarithmic
# in what is loaded, and threads that aren't loaded cost a checkout nothing. And it times what a small machine takes at the
# greatest capacities up to its seal, beside a text that is at fault in its first line. That should be under 300 microseconds. It took
# 680 while memory and views were written as zeros when they were made. On 2026-11-29, with none of them written before it is used, it
# took 172, on a machine that others used as well. On that day a row took 2.4 microseconds and 2.9, and a thread 0.4 both times.
set -euo pipefail
script=bench/board.sh
top="$(cd "$(dirname "$0")/.." && pwd)"
source "$top/scripts/program.sh"
take_help "$@"
place="$(mktemp -d)"
trap 'rm -rf "$place"' EXIT

# timed RUNS: microseconds that the list takes, the least of so many runs; its answers are left in the file answers.
timed() {
    local start end least='' run
    for ((run = 0; run < $1; run++)); do
        start=$EPOCHREALTIME
        "$proved" < "$place/list" > "$place/answers" || true
        end=$EPOCHREALTIME
        [[ -n $least ]] && ((least <= ${end/./} - ${start/./})) || least=$((${end/./} - ${start/./}))
    done
    echo "$least"
}

machine() {
    echo 'mem 16'
    echo 'kernel 0'
    for group in $(seq 0 15); do echo "right 0 $group rw"; done
    echo 'space 0 0'
}

# rows N CYCLES: so many rows are loaded, and the first leaves and comes back so often.
rows() {
    machine
    awk -v rows="$1" -v cycles="$2" 'BEGIN {
        for (i = 0; i < rows; i++) print "map 0", i, i % 2048, "r"
        print "end\nseal\nload space 0 K0.0 0"
        for (i = 0; i < rows; i++) print "load row", 0, "K0.0 S0.1", i, "-"
        # the seal and the space have the first two serials
        serial = 2
        for (i = 0; i < cycles; i++) {
            print "unload 0 K0.0 M0." serial
            print "load row", 0, "K0.0 S0.1", 0, "-"
            serial = rows + 2 + i
        }
    }'
}

# threads N CYCLES: so many threads stand, sixteen of them loaded, and one is checked out and given back so often.
threads() {
    machine
    awk -v threads="$1" -v cycles="$2" 'BEGIN {
        for (i = 0; i < threads; i++) print "thread", i, 0, 0
        print "map 0 0 0 rx\nend\nseal\nload space 0 K0.0 0"
        print "load row", 0, "K0.0 S0.1", 0, "-"
        for (i = 0; i < 16; i++) print "load thread 0 K0.0 S0.1", i
        for (i = 0; i < cycles; i++) print "checkout 0\nleave 0"
    }'
}

# compare WHAT SMALL LARGE CYCLES: times both, and prints their ratio.
compare() {
    local size base whole refused
    local -a each=()
    for size in "$2" "$3"; do
        "$1" "$size" 0 > "$place/list"
        base=$(timed 5)
        "$1" "$size" "$4" > "$place/list"
        whole=$(timed 5)
        refused=$(grep -c '^refused\|^operation fault\|^scenario fault\|^no ' "$place/answers" || true)
        each+=($(((whole - base) * 1000 / $4)))
        echo "$size $1: ${each[-1]} ns for each of $4 pairs of calls ($refused refused)"
    done
    awk -v small="${each[0]}" -v large="${each[1]}" 'BEGIN { if (small > 0) print "ratio", large / small; else print "too few calls to tell" }'
}

"$top/build"
find_proved v_drive
compare rows 1024 65536 20000
compare threads 16 16000 40000

echo 'no machine' > "$place/list"
base=$(timed 100)
{
    echo 'mem 1'
    printf '%s\n' 'kernel 0' 'right 0 0 rw' 'space 0 0' 'thread 0 0 0' 'map 0 0 0 rx' end seal
} > "$place/list"
echo "start: $(($(timed 100) - base)) microseconds up to the seal of a small machine"
