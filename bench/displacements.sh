#!/usr/bin/env bash
# Usage: bench/displacements.sh
# Times a displacement of a row in a store with slots for 1,024, 8,192 and 65,536 rows that is full, and in one of the same size
# with 64 rows: a victim is asked for with a keep list of six, before which sixteen locked rows and the six stand; it goes out of
# its slot, out of the order by serial, out of the pairs of dependence and off the shelf, and another row is declared and loaded. It fails where a displacement at 65,536 rows takes more than 3 times one at 1,024.
#
# In plain sorted vectors (measured on 2026-11-27) a displacement in a full cache, without the pairs, took 4 to 11
# microseconds with 1,024 rows and 196 to 443 with 65,536, nearly all of it moves of what is behind a place; the pairs cost
# as much again, and a cache that was nearly empty moved all its free slots.
#
# Makes a program in a temporary folder, and lets rt prove and build it there.
set -euo pipefail
source "$(dirname "$0")/program.sh"
begin_program displacement_times "$(crates_below kind_store depend_lists)" anyhow
mkdir -p "$program"/proofs/{depend,lock_oldest,with_room,displace_often,filled,best_of,measured}
cat > "$program/src/main.rt" <<'MAIN'
#![tactic(auto)]

ghost use Rattle.std.specs.Prelude.{◌≡◌, ◌+◌, ◌*◌, ◌<◌, ◌≤◌};
ghost use Rattle.cache_ident.specs.declared.idents.Kind.TheVariants.{Mapping};
ghost use Rattle.kind_store.specs.Rolls.{AreEnrolled};
ghost use Rattle.displacement_times.specs.declared.TheConstants.{CAPS, TURNS};

use cache_ident::{Caps, Frame, Ident, KernelNo, Kind, Name, NoMemory, Roll, SpaceNo, Vpn};
use depend_lists::{Class, Depends, Node};
use kind_store::KindStore;
use phys_groups::{Flags, Row};
use std::alloc::Global;
use std::time::Instant;

const CAPS: Caps = Caps {
    kernels: 70_000,
    spaces: 70_000,
    threads: 70_000,
    mappings: 70_000,
};

// So many displacements are timed at once.
const TURNS: u32 = 2_000;

const OWNER: KernelNo = KernelNo(0);

// The pages, frames and spaces are scattered, so that each index is searched and changed everywhere.
fn row(no: u32) -> Row {
    Row {
        space: SpaceNo(no % 16),
        vpn: Vpn(no.wrapping_mul(2_654_435_761)),
        frame: Frame(no.wrapping_mul(40_503) % 2_048),
        flags: Flags::default(),
        receiver: None,
        referenced: false,
        modified: false,
    }
}

// Makes a row depend on its space, and on nothing else.
fn depend(depends: &mut Depends, space: SpaceNo, child: Node)
    requires { depends.old.caps ≡ CAPS }
    ensures { depends.new.caps ≡ CAPS }
{
    let parent = Ident {
        kind: Kind::Space,
        slot: space.0,
        serial: u64::from(space.0),
    };
    depends.remove(child.ident);
    if depends.len() < 69_000 {
        depends.add(parent, child);
    }
}

// Declares a row that isn't there yet, and loads it.
fn load(rows: &mut KindStore<Row>, roll: &mut Roll, depends: &mut Depends, row: Row)
    requires enrolled { AreEnrolled Mapping roll.old.issued rows.old.cells }
    requires caps { depends.old.caps ≡ CAPS }
    ensures enrolled { AreEnrolled Mapping roll.new.issued rows.new.cells }
    ensures caps { depends.new.caps ≡ CAPS }
{
    let name = Name::Mapping(row.space, row.vpn);
    let space = row.space;
    match rows.item(name) {
        None if rows.room() > 0 => rows.declare(OWNER, row),
        _ => {}
    }
    if let (Some(_), Some(_), true) = (rows.owner_of(name), rows.free(), roll.spare() > 0) {
        let ident = rows.load(name, roll);
        let class = Class::OtherRow;
        depend(depends, space, Node { ident, class });
    }
}

// Has the victim leave, and takes it off the shelf.
fn unload(rows: &mut KindStore<Row>, roll: &mut Roll, depends: &mut Depends, keep: &[Ident])
    requires enrolled { AreEnrolled Mapping roll.old.issued rows.old.cells }
    requires caps { depends.old.caps ≡ CAPS }
    ensures enrolled { AreEnrolled Mapping roll.new.issued rows.new.cells }
    ensures caps { depends.new.caps ≡ CAPS }
{
    if let Some(ident) = rows.victim(keep) {
        if let Some(row) = rows.get(ident) {
            let name = Name::Mapping(row.space, row.vpn);
            rows.leave(ident, OWNER, roll, 0);
            depends.remove(ident);
            if let Some(_) = rows.owner_of(name) {
                rows.retract(name);
            }
        }
    }
}

fn displace_often(rows: &mut KindStore<Row>, roll: &mut Roll, depends: &mut Depends, keep: &[Ident], from: u32)
    requires few { from ≤ 1000000 }
    requires enrolled { AreEnrolled Mapping roll.old.issued rows.old.cells }
    requires caps { depends.old.caps ≡ CAPS }
    ensures enrolled { AreEnrolled Mapping roll.new.issued rows.new.cells }
    ensures caps { depends.new.caps ≡ CAPS }
{
    for no in 0..TURNS {
        unload(rows, roll, depends, keep);
        load(rows, roll, depends, row(from + no));
    }
}

fn filled(rows: &mut KindStore<Row>, roll: &mut Roll, depends: &mut Depends, loaded: u32)
    requires enrolled { AreEnrolled Mapping roll.old.issued rows.old.cells }
    requires caps { depends.old.caps ≡ CAPS }
    ensures enrolled { AreEnrolled Mapping roll.new.issued rows.new.cells }
    ensures caps { depends.new.caps ≡ CAPS }
{
    for no in 0..loaded {
        load(rows, roll, depends, row(no));
    }
}

// Locks the sixteen oldest rows.
fn lock_oldest(rows: &mut KindStore<Row>, roll: &Roll)
    requires { AreEnrolled Mapping roll.now.issued rows.old.cells }
    ensures { AreEnrolled Mapping roll.now.issued rows.new.cells }
{
    for _ in 0..16u32 {
        if let Some(ident) = rows.victim(&[]) {
            rows.lock(ident);
        }
    }
}

// The six oldest rows that aren't locked.
fn oldest(alloc: Global, rows: &KindStore<Row>) -> Result<Vec<Ident>, NoMemory> {
    let mut keep = Vec::with_capacity(alloc, 6)?;
    for _ in 0..6u32 {
        if let Some(ident) = rows.victim(&keep) {
            keep.push(ident)?;
        }
    }
    Ok(keep)
}

// Room for so many rows.
fn with_room(rows: &mut KindStore<Row>, roll: &Roll, count: usize) -> Result<(), NoMemory>
    requires { AreEnrolled Mapping roll.now.issued rows.old.cells }
    ensures { AreEnrolled Mapping roll.now.issued rows.new.cells }
{
    for _ in 0..32u32 {
        if rows.room() < count {
            rows.make_room()?;
        }
    }
    Ok(())
}

// The time of one displacement, in nanoseconds: the best of sixteen times of many.
fn best_of(rt: &impl std::rt::Clock, rows: &mut KindStore<Row>, roll: &mut Roll, depends: &mut Depends, keep: &[Ident], loaded: u32) -> anyhow::Result<u128>
    requires few { loaded ≤ 65536 }
    requires enrolled { AreEnrolled Mapping roll.old.issued rows.old.cells }
    requires caps { depends.old.caps ≡ CAPS }
{
    let mut best = u128::MAX;
    for batch in 0..16u32 {
        let start = Instant::now(rt)?;
        displace_often(rows, roll, depends, keep, loaded + batch * TURNS);
        best = best.min(start.elapsed(rt)?.as_nanos() / u128::from(TURNS));
    }
    Ok(best)
}

fn measured(rt: &(impl std::rt::Clock + AllocGlobal), cap: u32, loaded: u32) -> anyhow::Result<u128>
    requires { loaded ≤ 65536 }
{
    let mut rows = KindStore::new(rt.alloc(), cap)?;
    let mut depends = Depends::new(rt.alloc(), CAPS)?;
    let mut roll = Roll::new(rt.alloc());
    roll.reserve(100_000)?;
    with_room(&mut rows, &roll, loaded as usize + 1)?;
    filled(&mut rows, &mut roll, &mut depends, loaded);
    lock_oldest(&mut rows, &roll);
    let keep = oldest(rt.alloc(), &rows)?;
    best_of(rt, &mut rows, &mut roll, &mut depends, &keep, loaded)
}

fn of_size(rt: &(impl Print + std::rt::Clock + AllocGlobal), cap: u32) -> anyhow::Result<()>
    requires { cap ≤ 65536 }
{
    let full = measured(rt, cap, cap)?;
    println!(rt; "full, room for {cap} rows: {full} ns a displacement")?;
    let few = measured(rt, cap, 64)?;
    println!(rt; "nearly empty, room for {cap} rows: {few} ns a displacement")?;
    Ok(())
}

fn main(rt: HostRuntime) -> anyhow::Result<()> {
    of_size(&rt, 1_024)?;
    of_size(&rt, 8_192)?;
    of_size(&rt, 65_536)
}
MAIN
answer_depend displacement_times
for loop in displace_often filled; do
    cat > "$program/proofs/$loop/Invariants.antt" <<PROOF
use Rattle.std.proofs.Common.{◌≡◌}
use Rattle.cache_ident.specs.declared.idents.Kind.TheVariants.{Mapping}
use Rattle.kind_store.specs.Rolls.{AreEnrolled}
use Rattle.displacement_times.specs.declared.TheConstants.{CAPS}
use Rattle.displacement_times.proofs.$loop.Given as goal

abbrev pub invariant-loop-no : goal.invariant-loop-no
invariant-loop-no l = record { enrolled : AreEnrolled Mapping l.roll.issued l.rows.cells; caps : l.depends.caps ≡ CAPS }
PROOF
done
for loop in lock_oldest with_room; do
    cat > "$program/proofs/$loop/Invariants.antt" <<PROOF
use Rattle.cache_ident.specs.declared.idents.Kind.TheVariants.{Mapping}
use Rattle.kind_store.specs.Rolls.{AreEnrolled}
use Rattle.displacement_times.proofs.$loop.Given as goal

abbrev pub invariant-loop : goal.invariant-loop
invariant-loop l = AreEnrolled Mapping l.roll.issued l.rows.cells
PROOF
done
cat > "$program/proofs/lock_oldest/Answers.antt" <<'PROOF'
use Rattle.displacement_times.proofs.lock_oldest.Goals.{in-Some, in_default}
use Rattle.displacement_times.proofs.lock_oldest.Goals as goal

pub loop-preserved : goal.loop-preserved
loop-preserved c = elim c.match-victim.branch [
  | in-Some w ↦ rw w.rows-is (w.lock.ensures.enrolled c.args.roll.now.issued c.loop.invariant)
  | in_default w ↦ rw w.rows-is c.loop.invariant
]
PROOF
cat > "$program/proofs/best_of/Invariants.antt" <<'PROOF'
use Rattle.std.proofs.Common.{◌≡◌}
use Rattle.cache_ident.specs.declared.idents.Kind.TheVariants.{Mapping}
use Rattle.kind_store.specs.Rolls.{AreEnrolled}
use Rattle.displacement_times.specs.declared.TheConstants.{CAPS}
use Rattle.displacement_times.proofs.best_of.Given as goal

abbrev pub invariant-loop-batch : goal.invariant-loop-batch
invariant-loop-batch g l = record { enrolled : AreEnrolled Mapping l.roll.issued l.rows.cells; caps : l.depends.caps ≡ CAPS }
PROOF
cat > "$program/proofs/measured/Answers.antt" <<'PROOF'
use Rattle.cache_ident.specs.declared.idents.Kind.TheVariants.{Mapping}
use Rattle.kind_store.proofs.EnrolLemmas.{enrolled-none}
use Rattle.displacement_times.proofs.measured.Goals as goal

pub with_room-requires : goal.with_room-requires
with_room-requires g c = rw (c.in_ok-rows.ensures, c.in_ok-reserve.ensures.issued, c.new-roll.ensures) (enrolled-none Mapping c.args.cap)
PROOF

times="$(run_program ' ns a displacement')" || { echo "$times"; exit 1; }
echo "$times"
echo "$times" | awk '{ state = $0; sub(/,.*/, "", state); took[state, $(NF - 5)] = $(NF - 3); states[state] }
    END {
        for (state in states) {
            ratio = took[state, 1024] > 0 ? took[state, 65536] / took[state, 1024] : 99
            printf "%s: 65,536 rows take %.1f times as long as 1,024\n", state, ratio
            if (ratio > 3) slow = 1
        }
        if (slow) { print "a displacement takes more than 3 times as long where there are more rows"; exit 1 }
    }'
