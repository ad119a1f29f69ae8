#!/usr/bin/env bash
# Usage: bench/loaded_memory.sh [PROGRAM]
# Prints how many bytes of memory a row and a thread take once they are declared, and how many more while they are loaded. Each is the
# difference of what two lists of operations take:
# - 16,000 rows or threads are declared, and beside that as many words, which make as many entries of the journal;
# - 60,000 declared rows are loaded, and beside that the first is loaded, and refused as often as there are others. The entry of the
#   journal that a load makes, 40 bytes, is taken off;
# - 256 declared threads, which are all that can be loaded at once, are loaded behind many rows, and beside that each is refused. They fill
#   few pages, so that is done behind sixteen numbers of rows, and all are added up. It is exact to some 20 bytes.
# Counted are the pages that the system gave the program, less the bytes of the two texts. So that no page counts for two things, the
# allocator is told to give back what is freed at once, and setarch has addresses be the same in all runs. What a load makes room for counts
# once it is written to. docs/DECISIONS.md says where the bytes go. PROGRAM is a v_drive to measure instead of the one that is built, as an
# older one. It wants Debian's package time.
set -euo pipefail
script=bench/loaded_memory.sh
top="$(cd "$(dirname "$0")/.." && pwd)"
source "$top/scripts/program.sh"
take_help "$@"
[ -x /usr/bin/time ] || { echo "$script: there is no /usr/bin/time" >&2; exit 1; }
place="$(mktemp -d)"
trap 'rm -rf "$place"' EXIT
if [[ -n ${1:-} ]]; then
    measured="$(realpath "$1")"
else
    "$top/build"
    find_proved v_drive
    measured="$proved"
fi
entry=40
page=$(getconf PAGESIZE)

machine() {
    printf '%s\n' 'mem 1' 'kernel 0' 'right 0 0 rw' 'space 0 0'
}

# declared NUMBER WHAT: so many rows, threads or words are declared.
declared() {
    machine
    awk -v number="$1" -v what="$2" 'BEGIN {
        print "end"
        for (i = 0; i < number; i++) {
            if (what == "row") print "declare map 0", i, i % 128, "r -"
            if (what == "thread") print "declare thread", i, "0 0 0 0 0"
            if (what == "word") print "declare word 0 0 00000000"
        }
    }'
}

# rows NUMBER EACH: so many rows are declared, of which each is loaded where EACH is 1, and else the first again and again.
rows() {
    machine
    awk -v rows="$1" -v each="$2" 'BEGIN {
        for (i = 0; i < rows; i++) print "map 0", i, i % 128, "r"
        print "end\nseal\nload space 0 K0.0 0"
        for (i = 0; i < rows; i++) print "load row", 0, "K0.0 S0.1", each * i, "-"
    }'
}

# threads NUMBER ROWS KERNEL: so many threads are declared, and loaded for that kernel behind so many rows.
threads() {
    machine
    awk -v threads="$1" -v rows="$2" -v kernel="$3" 'BEGIN {
        for (i = 0; i < threads; i++) print "thread", i, 0, 0
        for (i = 0; i < rows; i++) print "map 0", i, i % 128, "r"
        print "end\nseal\nload space 0 K0.0 0"
        for (i = 0; i < rows; i++) print "load row", 0, "K0.0 S0.1", i, "-"
        for (i = 0; i < threads; i++) print "load thread 0", kernel, "S0.1", i
    }'
}

# taken REFUSED MAKER ARGUMENT..: sets bytes to the memory that the operations took, of which so many are to be refused.
taken() {
    local most="$1" refused
    shift
    "$@" > "$place/operations"
    MALLOC_MMAP_THRESHOLD_=4096 MALLOC_TRIM_THRESHOLD_=0 MALLOC_TOP_PAD_=0 setarch -R \
        /usr/bin/time -f %R -o "$place/pages" "$measured" < "$place/operations" > "$place/answers"
    refused=$(grep -c '^refused' "$place/answers" || true)
    if ((refused != most)) || grep -q '^operation fault\|^scenario fault' "$place/answers"; then
        echo "$script: $refused operations of $* were refused, and not $most" >&2
        exit 1
    fi
    bytes=$(($(tail -n 1 "$place/pages") * page - $(cat "$place/operations" "$place/answers" | wc -c)))
}

number=16000
taken 0 declared "$number" word
words=$bytes
for what in row thread; do
    taken 0 declared "$number" "$what"
    echo "a declared $what takes $(((bytes - words) / number)) bytes"
done

number=60000
taken $((number - 1)) rows "$number" 0
refused=$bytes
taken 0 rows "$number" 1
echo "a loaded row takes $(((bytes - refused) / number - entry)) bytes more than a declared one"

number=256
times=16
all=0
for ((time = 0; time < times; time++)); do
    behind=$((10000 + 29 * time))
    taken 0 threads "$number" "$behind" K0.0
    all=$((all + bytes))
    taken "$number" threads "$number" "$behind" K1.1
    all=$((all - bytes))
done
echo "a loaded thread takes $((all / (times * number) - entry)) bytes more than a declared one"
