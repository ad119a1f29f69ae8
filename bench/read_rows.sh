#!/usr/bin/env bash
# Usage: bench/read_rows.sh
# Times the whole program on scenarios of 50,000, 100,000 and 200,000 rows. Twice the rows should take about twice
# the time: each row is found to be the first of its page in a time logarithmic in the rows.
set -euo pipefail
top="$(cd "$(dirname "$0")/.." && pwd)"
source "$top/scripts/usage.sh"
take_help "$@"
place="$(mktemp -d)"
trap 'rm -rf "$place"' EXIT

scenario() {
    echo 'mem 16'
    echo 'kernel 0'
    for group in $(seq 0 15); do echo "right 0 $group rw"; done
    echo 'space 0 0'
    echo 'thread 0 0 0'
    awk -v rows="$1" 'BEGIN { for (i = 0; i < rows; i++) print "map 0", i, i % 2048, "rx" }'
    echo 'word 0 0 00100093 00000893 00000073'
    echo 'end'
}

"$top/build"
for rows in 50000 100000 200000; do
    scenario "$rows" > "$place/scenario"
    start=$(date +%s%N)
    "$top/run" < "$place/scenario" > "$place/report"
    end=$(date +%s%N)
    grep -q "^space 0 rows $rows referenced 1 " "$place/report"
    echo "$rows rows, $(wc -c < "$place/scenario") bytes: $(((end - start) / 1000000)) ms"
done
