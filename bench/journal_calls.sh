#!/usr/bin/env bash
# Usage: bench/journal_calls.sh [PROGRAM]
# Times the check of journals whose threads change rights and rows while many rows are loaded, all in one page group. Each is
# a scenario with a legal journal behind it, as mode check reads it.
#
#   grant     call 9 gives and takes the write bit of the group, for which no loaded row asks
#   map       calls 6 and 7 add a signal row and take it away again, on a frame that has all the loaded rows
#
# With four times the calls and the rows it should take little more than four times the time. PROGRAM is a v_run to time instead
# of ./run, as one that is built without proofs.
set -euo pipefail
top=$(cd "$(dirname "$0")/.." && pwd)
source "$top/scripts/usage.sh"
take_help "$@"
program=${1:-$top/run}
texts=$(mktemp -d)
trap 'rm -rf "$texts"' EXIT

# Usage: journal KIND ROWS CALLS
journal() {
    python3 - "$@" << 'TEXT'
import sys

kind, rows, calls = sys.argv[1], int(sys.argv[2]), int(sys.argv[3])


def word(funct, target, source, number):
    return number << 20 | source << 15 | funct << 12 | target << 7 | 0x13


def back(instructions):
    """A jump over so many instructions backwards."""
    n = (-4 * instructions) & 0x1FFFFF
    return (n >> 20 & 1) << 31 | (n >> 1 & 0x3FF) << 21 | (n >> 11 & 1) << 20 | (n >> 12 & 0xFF) << 12 | 0x6F


def loaded(slot, page):
    return f'loaded M{slot}.{3 + slot} row {SPACE} {page} cpu 0'


SPACE = 0
ADD, XOR, ECALL = 0, 4, 0x73
A0, A1, A2, A3, A7 = 10, 11, 12, 13, 17
if kind == 'grant':
    # rights of kernel 0 on group 0: their bits change between 1 and 3
    words = [word(ADD, A7, 0, 9), word(ADD, A0, 0, 0), word(ADD, A1, 0, 0), word(ADD, A2, 0, 3), ECALL, word(XOR, A2, A2, 2), back(2)]
    first, steps = 5, [3]
else:
    # a signal row of thread 0 at page 1 and frame 1
    words = [word(ADD, A1, 0, 1), word(ADD, A2, 0, 1), word(ADD, A3, 0, 1), word(ADD, A7, 0, 6), word(ADD, A0, 0, 1), ECALL,
             word(ADD, A7, 0, 7), word(ADD, A0, 0, 1), ECALL, back(6)]
    first, steps = 6, [3, 4]
lines = ['mem 1', 'kernel 0', 'right 0 0 rw', 'space 0 0', 'thread 0 0 0', 'map 0 0 0 x']
decls = ['machine 1 16 64 256 65536', 'kernel 0 1 0 0 0', 'right 0 0 rw', 'space 0 0', 'thread 0 0 0 0 0 0', 'map 0 0 0 x -']
for row in range(rows):
    frame = 1 if kind == 'map' else 1 + row % 127
    lines.append(f'map 0 {16 + row} {frame} r')
    decls.append(f'map 0 {16 + row} {frame} r -')
for place, it in enumerate(words):
    lines.append(f'word 0 {4 * place} {it:08x}')
    decls.append(f'word 0 {4 * place} {it:08x}')
entries = ['sealed', 'loaded K0.0 kernel 0 cpu 0', 'locked K0.0 cpu 0', 'loaded S0.1 space 0 cpu 0', 'loaded T0.2 thread 0 cpu 0', loaded(0, 0)]
entries += [loaded(1 + row, 16 + row) for row in range(rows)]
for call in range(calls):
    entries.append(f'ran 0 {first if call == 0 else steps[(call - 1) % len(steps)]} cpu 0')
    entries.append('completed 0 cpu 0')
print('\n'.join([*lines, 'end', *decls, *entries]))
TEXT
}

for kind in grant map; do
    for size in '1000 500' '4000 2000' '16000 8000' '40000 20000'; do
        read -r rows calls <<< "$size"
        journal "$kind" "$rows" "$calls" > "$texts/input"
        start=$(date +%s%N)
        answer=$("$program" --mode check < "$texts/input" | head -n 1) || true
        echo "$kind, $rows rows, $calls calls, $(wc -c < "$texts/input") bytes: $answer in $((($(date +%s%N) - start) / 1000000)) ms"
    done
done
