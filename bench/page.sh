#!/usr/bin/env bash
# Usage: bench/page.sh [PEER SCENARIO]
# Times mode page of the proved program: a million steps of a thread that goes through 3 pages, and through 48, with 64 frames and with
# 2, and beside that half of the steps. It prints how many times slower 2 frames are, and how many pages 600 steps read from the store
# and wrote to it. It fails where twice the steps take more than 2.2 times the time. With the path of a program that reads scenarios,
# and of a scenario for both, it prints the steps a second of the two with 64 frames, and their ratio, which should reach 0.6.
#
# What is timed is the processor's time for ten runs of the whole program, the shortest of nine, less that of ten runs of one step. It
# wants the program that ./build leaves. A program of its own counts the pages. rt tries it without proofs, since what it counts doesn't
# hang on them, and takes no more steps so.
set -u
unset CDPATH
script=bench/page.sh
source "$(dirname "${BASH_SOURCE[0]}")/program.sh"
source "$top/scripts/program.sh"
want_proved v_run
failed=0

# going_through PAGES: a thread that stores to that many pages in turn, again and again.
going_through() {
    local page
    printf 'mem 1\nkernel 0\nright 0 0 rw\nspace 0 0\nthread 0 0 0\nmap 0 0 0 rx\n'
    for ((page = 1; page <= $1; page++)); do
        printf 'map 0 %d %d rw\n' "$page" "$page"
    done
    cat << END
code 0 0
lui t1, $(($1 + 1))
again:
lui t0, 1
next:
lw t2, 0(t0)
addi t2, t2, 1
sw t2, 0(t0)
lui t3, 1
add t0, t0, t3
bne t0, t1, next
jal zero, again
endcode
end
END
}

begin_program page_counts "$(crates_below paged_run scenario_reader)"
cat > "$program/src/main.rt" << 'MAIN'
//! Counts what 600 steps of the scenario on standard input read from a store and write to it, with 64 frames and with 2.
#![tactic(auto)]

use byte_ports::{FromRead, read_to_end};
use flat_state::{Decl, Machine};
use paged_run::{MemStore, first_machine, run_paged};
use scenario_reader::read_opening;
use std::alloc::Global;
use std::io;

fn count(rt: &impl Print, alloc: Global, decls: &[Decl], machine: Machine, frames: u32) -> io::Result<()> {
    let Ok(mut store) = MemStore::new(alloc, machine.groups, &[]) else {
        return println!(rt; "want of memory");
    };
    let Ok(_run) = run_paged(alloc, decls, frames, 600, &mut store) else {
        return println!(rt; "no run");
    };
    let writes = store.writes();
    let reads = store.calls() - writes;
    println!(rt; "{frames} frames: {reads} pages read, {writes} written")
}

fn main(rt: HostRuntime) -> io::Result<()> {
    let mut source = FromRead::new(rt.stdin());
    let Ok(text) = read_to_end(rt.alloc(), &mut source, 4_194_304) else {
        return println!(rt; "no text");
    };
    let Ok(scenario) = read_opening(rt.alloc(), &text) else {
        return println!(rt; "no scenario");
    };
    let machine = first_machine(scenario.decls());
    count(&rt, rt.alloc(), scenario.decls(), machine, 64)?;
    count(&rt, rt.alloc(), scenario.decls(), machine, 2)
}
MAIN

# ten COMMAND..: ten runs of it on $place/scenario.
ten() {
    local run
    for ((run = 0; run < 10; run++)); do
        "$@" < "$place/scenario" > /dev/null
    done
}

# shortest COMMAND..: the shortest processor time of nine times ten runs of it, in milliseconds.
shortest() {
    local best= taken
    for _ in 1 2 3 4 5 6 7 8 9; do
        taken=$( { TIMEFORMAT='%U %S'; time ten "$@"; } 2>&1 | awk '{ printf "%d", 1000 * ($1 + $2) }')
        [ -n "$best" ] && ((best <= taken)) || best=$taken
    done
    echo "$best"
}

# of_steps FRAMES STEPS: the time of ten times that many steps, in milliseconds, and 1 at least.
of_steps() {
    local all few
    all=$(shortest "$proved" --mode page --frames "$1" --steps "$2")
    few=$(shortest "$proved" --mode page --frames "$1" --steps 1)
    echo $((all > few ? all - few : 1))
}

for pages in 3 48; do
    going_through "$pages" > "$place/scenario"
    declare -A whole
    for frames in 64 2; do
        half=$(of_steps "$frames" 500000)
        whole[$frames]=$(of_steps "$frames" 1000000)
        echo "$pages pages, $frames frames, ten times: $half ms for 500,000 steps, ${whole[$frames]} ms for 1,000,000"
        if ((half >= 20 && 10 * whole[$frames] > 22 * half)); then
            failed=1
        fi
    done
    awk -v few="${whole[2]}" -v many="${whole[64]}" -v pages="$pages" 'BEGIN { printf "%d pages: with 2 frames %.1f times slower\n", pages, few / many }'
    (cd "$program" && rt try < "$place/scenario" 2> "$place/log") | sed -n "s/^[0-9]* frames: /$pages pages, 600 steps, &/p"
done
if (($# == 2)); then
    cp "$2" "$place/scenario"
    own=$(shortest "$proved" --mode page --frames 64 --steps 1000000)
    other=$(shortest "$1" --steps 1000000)
    awk -v own="$own" -v other="$other" 'BEGIN { printf "ten times %d ms, and the other program %d ms: %.2f of its steps a second\n", own, other, own ? other / own : 0 }'
fi
exit "$failed"
