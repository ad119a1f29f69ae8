#!/usr/bin/env bash
# Times the store of rows with 16,384, 65,536 and 262,144 rows: adding them, going over them, taking out the last row
# and adding it again, and the same with rows in the middle. Four times the rows should make each little slower for each
# row, wherever it stands.
#
# Makes a program in a temporary folder, and lets rt prove and build it there.
set -euo pipefail
source "$(dirname "$0")/program.sh"
begin_program row_times "$(crates_below row_table)"
cat > "$program/src/main.rt" <<'MAIN'
#![tactic(auto)]

use cache_ident::{Frame, NoMemory, SpaceNo, Vpn};
use phys_groups::{Flags, Row};
use row_table::RowTable;
use std::alloc::Global;
use std::io;
use std::time::Instant;

const TURNS: u32 = 1000;

// Adds a row of the page, which has no receiver, where there is none.
fn add(table: &mut RowTable, vpn: u32) -> Result<(), NoMemory> {
    let row = Row {
        space: SpaceNo(0),
        vpn: Vpn(vpn),
        frame: Frame(vpn),
        flags: Flags::default(),
        receiver: None,
        referenced: false,
        modified: false,
    };
    if table.get(row.space, row.vpn).is_none() {
        table.push(row)?;
    }
    Ok(())
}

fn filled(alloc: Global, count: u32) -> Result<RowTable, NoMemory> {
    let mut table = RowTable::new(alloc);
    for vpn in 0..count {
        add(&mut table, vpn)?;
    }
    Ok(table)
}

// Takes out the row of a page and adds it again.
fn turn(table: &mut RowTable, vpn: u32) -> Result<(), NoMemory> {
    table.remove(SpaceNo(0), Vpn(vpn));
    add(table, vpn)
}

fn turns_at_end(table: &mut RowTable, last: u32) -> Result<(), NoMemory> {
    for _ in 0..TURNS {
        turn(table, last)?;
    }
    Ok(())
}

fn turns_in_middle(table: &mut RowTable, middle: u32) -> Result<(), NoMemory> {
    for vpn in 0..TURNS {
        turn(table, middle.saturating_add(vpn))?;
    }
    Ok(())
}

fn timed(rt: &(impl Print + std::rt::Clock), alloc: Global, count: u32) -> io::Result<()> {
    let start = Instant::now(rt)?;
    let Ok(mut table) = filled(alloc, count) else {
        return Ok(());
    };
    let adding = start.elapsed(rt)?.as_micros();
    let start = Instant::now(rt)?;
    let _ = turns_at_end(&mut table, count.saturating_sub(1));
    let at_end = start.elapsed(rt)?.as_micros();
    let start = Instant::now(rt)?;
    let _ = turns_in_middle(&mut table, count / 2);
    let in_middle = start.elapsed(rt)?.as_micros();
    let start = Instant::now(rt)?;
    let marked = table.iter().filter(|row| row.referenced).count();
    let going = start.elapsed(rt)?.as_micros();
    println!(rt; "{count} rows: all added in {adding} us, gone over in {going} us ({marked} marked); {TURNS} taken out and added again: the last one in {at_end} us, in the middle in {in_middle} us")
}

fn main(rt: HostRuntime) -> io::Result<()> {
    timed(&rt, rt.alloc(), 16_384)?;
    timed(&rt, rt.alloc(), 65_536)?;
    timed(&rt, rt.alloc(), 262_144)
}
MAIN

run_program ' taken out and added again'
