#!/usr/bin/env bash
# Usage: bench/leaving.sh
# Times what leaves, where 1,024, 8,192 and 65,536 rows are loaded: the order of a space with ten other rows, whose time
# grows with what is loaded as the length of a search does, and all rows with the kernel of their spaces, which are put in
# order and whose pairs are taken out one after another. It fails where the time for each of these rows grows by more than
# 3 times.
#
# What is timed is the processor's time in the calls, since a run of some hundred milliseconds is always interrupted where
# the machine does other work, and one of a millisecond seldom is. All rows leave eight times, and the shortest time counts.
# On 2026-11-27 a row took 735 ns of 1,024, 1,000 of 8,192 and 1,430 of 65,536.
#
# Two of the kernel's spaces have the rows in turn, so that those of the one stand between those of the other in the order
# of identifiers.
#
# In plain sorted vectors (measured on 2026-11-27) each of 1,024 rows took 1,859 ns to leave, and 65,536 rows took 11
# seconds in plain Rust, since each moved what is behind it.
#
# Makes a program in a temporary folder, and lets rt prove and build it there.
set -euo pipefail
source "$(dirname "$0")/program.sh"
begin_program leaving_times "$(crates_below writeback_order)" anyhow
mkdir -p "$program"/proofs/{depend,load,timed,of_rows}
cat > "$program/src/main.rt" <<'MAIN'
#![tactic(auto)]

ghost use Rattle.std.specs.Prelude.{◌≡◌, ◌<◌, ◌≤◌};
ghost use Rattle.leaving_times.specs.declared.TheConstants.{CAPS};

use cache_ident::{Caps, Ident, Kind};
use depend_lists::{Class, Depends, Node};
use std::time::CpuClock;
use writeback_order::{Scratch, order};

const CAPS: Caps = Caps {
    kernels: 70_000,
    spaces: 70_000,
    threads: 70_000,
    mappings: 70_000,
};

fn node(kind: Kind, number: u32, class: Class) -> Node {
    Node {
        ident: Ident {
            kind,
            slot: number,
            serial: number as u64,
        },
        class,
    }
}

// Makes the child depend on the parent, and on nothing else.
fn depend(depends: &mut Depends, parent: Node, child: Node)
    requires { depends.old.caps ≡ CAPS }
    ensures { depends.new.caps ≡ CAPS }
{
    depends.remove(child.ident);
    if depends.len() < 69_000 {
        depends.add(parent.ident, child);
    }
}

fn kernel() -> Node {
    node(Kind::Kernel, 0, Class::Kernel)
}

fn space(number: u32) -> Node {
    node(Kind::Space, number, Class::Space)
}

// Three spaces of the kernel: ten rows in the one in the middle, so many in turn in the two others.
fn load(depends: &mut Depends, rows: u32)
    requires rows { rows ≤ 65536 }
    requires caps { depends.old.caps ≡ CAPS }
    ensures { depends.new.caps ≡ CAPS }
{
    for number in 0..3u32 {
        depend(depends, kernel(), space(number));
    }
    for row in 0..rows {
        depend(depends, space(2 * (row % 2)), node(Kind::Mapping, row, Class::OtherRow));
    }
    for row in 0..10u32 {
        depend(depends, space(1), node(Kind::Mapping, rows + row, Class::OtherRow));
    }
}

// How many nanoseconds the processor has worked on this so far.
fn worked(rt: &impl CpuClock) -> anyhow::Result<u128> {
    Ok(rt.thread_cpu_time()?.as_nanos())
}

// The time of one order from this root, in nanoseconds.
fn timed(rt: &impl CpuClock, depends: &Depends, root: Node, scratch: &mut Scratch, times: u32) -> anyhow::Result<u128>
    requires caps { scratch.old.caps ≡ depends.now.caps }
    requires times { 0 < times }
    ensures { scratch.new.caps ≡ scratch.old.caps }
{
    let start = worked(rt)?;
    for _ in 0..times {
        order(depends, root, scratch);
    }
    Ok(worked(rt)?.saturating_sub(start) / times as u128)
}

// The time, in nanoseconds, in which all rows leave with the kernel of their spaces.
fn taken_out(rt: &(impl CpuClock + AllocGlobal), rows: u32, scratch: &mut Scratch) -> anyhow::Result<u128>
    requires caps { scratch.old.caps ≡ CAPS }
    requires rows { rows ≤ 65536 }
    ensures { scratch.new.caps ≡ CAPS }
{
    let mut depends = Depends::new(rt.alloc(), CAPS)?;
    load(&mut depends, rows);
    let start = worked(rt)?;
    order(&depends, kernel(), scratch);
    for node in scratch.nodes() {
        depends.remove(node.ident);
    }
    Ok(worked(rt)?.saturating_sub(start))
}

fn of_rows(rt: &(impl Print + CpuClock + AllocGlobal), rows: u32) -> anyhow::Result<()>
    requires some { 0 < rows }
    requires rows { rows ≤ 65536 }
{
    let start = worked(rt)?;
    let mut depends = Depends::new(rt.alloc(), CAPS)?;
    let mut scratch = Scratch::new(rt.alloc(), CAPS)?;
    let made = worked(rt)?.saturating_sub(start);
    load(&mut depends, rows);
    let few = timed(rt, &depends, space(1), &mut scratch, 100_000)?;
    println!(rt; "{rows} other rows: {few} ns for the order of a space with ten, {made} ns for the room")?;
    let mut best = u128::MAX;
    for _ in 0..8u32 {
        best = best.min(taken_out(rt, rows, &mut scratch)?);
    }
    let each = best / rows as u128;
    println!(rt; "{rows} rows leave in {best} ns, {each} ns for each row")?;
    Ok(())
}

fn main(rt: HostRuntime) -> anyhow::Result<()> {
    of_rows(&rt, 1024)?;
    of_rows(&rt, 8192)?;
    of_rows(&rt, 65_536)
}
MAIN
answer_depend leaving_times
cat > "$program/proofs/load/Invariants.antt" <<'PROOF'
use Rattle.std.proofs.Common.{◌≡◌}
use Rattle.leaving_times.specs.declared.TheConstants.{CAPS}
use Rattle.leaving_times.proofs.load.Given as goal

abbrev pub invariant-loop-number : goal.invariant-loop-number
invariant-loop-number l = l.depends.caps ≡ CAPS

abbrev pub invariant-loop-row : goal.invariant-loop-row
invariant-loop-row l = l.depends.caps ≡ CAPS

abbrev pub invariant-loop-row-2 : goal.invariant-loop-row-2
invariant-loop-row-2 l = l.depends.caps ≡ CAPS
PROOF
cat > "$program/proofs/timed/Invariants.antt" <<'PROOF'
use Rattle.std.proofs.Common.{◌≡◌}
use Rattle.leaving_times.proofs.timed.Given as goal

abbrev pub invariant-loop : goal.invariant-loop
invariant-loop g l = l.scratch.caps ≡ l.depends.caps
PROOF
cat > "$program/proofs/of_rows/Invariants.antt" <<'PROOF'
use Rattle.std.proofs.Common.{◌≡◌}
use Rattle.leaving_times.specs.declared.TheConstants.{CAPS}
use Rattle.leaving_times.proofs.of_rows.Given as goal

abbrev pub invariant-loop : goal.invariant-loop
invariant-loop g l = l.scratch.caps ≡ CAPS
PROOF

times="$(run_program ' ns for ')" || { echo "$times"; exit 1; }
echo "$times"
echo "$times" | awk '/ for each row$/ { each[$1] = $(NF - 4) }
    END { if (each[1024] > 0) printf "65,536 to 1,024: %.1f times\n", each[65536] / each[1024]
          if (each[1024] == 0 || each[65536] > 3 * each[1024]) { print "a row takes more than 3 times as long where more leave"; exit 1 } }'
