#!/usr/bin/env bash
# Times the check of journals of one hundred thousand entries and of a million behind their openings, on 1,024 rows and on
# 65,536: all rows are loaded, and then one after another is unloaded and loaded again. Ten times the entries should take
# ten times the time, and 64 times the rows little more.
#
# Makes a program in a temporary folder, and lets rt prove and build it there.
set -euo pipefail
source "$(dirname "$0")/program.sh"
begin_program check_times "$(crates_below journal_check)"
cat > "$program/src/main.rt" <<'MAIN'
#![tactic(auto)]

use cache_ident::{Cause, Ident, KernelNo, Kind, Name, NoMemory, SpaceNo, Vpn};
use journal_check::{Verdict, check};
use run_journal::{Entry, Journal};
use scenario_reader::{Scenario, read};
use std::alloc::Global;
use std::io;
use std::time::Instant;

// A space with so many rows of one frame.
fn text(alloc: Global, rows: u32) -> Result<Vec<u8>, NoMemory> {
    let mut text = Vec::from_slice(alloc, b"mem 1\nkernel 0\nright 0 0 rw\nspace 0 0\n")?;
    for page in 0..rows {
        let line = format!(in alloc; "map 0 {page} 0 r\n")?;
        text.extend_from_slice(line.as_bytes())?;
    }
    text.extend_from_slice(b"end\n")?;
    Ok(text)
}

fn ident(kind: Kind, slot: u32, serial: u64) -> Ident {
    Ident { kind, slot, serial }
}

fn loaded(ident: Ident, name: Name) -> Entry {
    Entry::Loaded {
        ident,
        name,
        cpu: 0,
    }
}

fn row(page: u32, serial: u64) -> Entry {
    loaded(
        ident(Kind::Mapping, page, serial),
        Name::Mapping(SpaceNo(0), Vpn(page)),
    )
}

// The opening, with all rows loaded.
fn opening(alloc: Global, scenario: &Scenario, rows: u32) -> Result<Journal, NoMemory> {
    let mut journal = Journal::new(alloc);
    for decl in scenario.decls() {
        journal.push(Entry::Declared { decl: *decl })?;
    }
    journal.push(Entry::Sealed)?;
    let kernel = ident(Kind::Kernel, 0, 0);
    journal.push(loaded(kernel, Name::Kernel(KernelNo(0))))?;
    journal.push(Entry::Locked {
        ident: kernel,
        cpu: 0,
    })?;
    journal.push(loaded(
        ident(Kind::Space, 0, 1),
        Name::Space(SpaceNo(0)),
    ))?;
    for page in 0..rows {
        journal.push(row(page, u64::from(page) + 2))?;
    }
    Ok(journal)
}

// One row after another is unloaded and loaded again.
fn go_on(journal: &mut Journal, rows: u32, times: u32) -> Result<(), NoMemory> {
    let mut page = 0;
    for time in 0..times {
        let serial = u64::from(time) + 2;
        journal.push(Entry::WrittenBack {
            ident: ident(Kind::Mapping, page, serial),
            cause: Cause::Unloaded,
            cpu: 0,
        })?;
        journal.push(row(page, serial + u64::from(rows)))?;
        page = if page < rows && page + 1 < rows { page + 1 } else { 0 };
    }
    Ok(())
}

fn timed(rt: &(impl Print + std::rt::Clock), alloc: Global, rows: u32, times: u32) -> io::Result<()> {
    let Ok(text) = text(alloc, rows) else {
        return Ok(());
    };
    let Ok(scenario) = read(alloc, &text) else {
        return Ok(());
    };
    let Ok(mut journal) = opening(alloc, &scenario, rows) else {
        return Ok(());
    };
    if go_on(&mut journal, rows, times).is_err() {
        return Ok(());
    }
    let start = Instant::now(rt)?;
    let found = match check(alloc, &scenario, &journal) {
        Ok(Verdict::Yes(_)) => "yes",
        Ok(Verdict::No { .. }) => "no",
        Err(_) => "want of memory",
    };
    let taken = start.elapsed(rt)?.as_micros();
    let entries = journal.len();
    println!(rt; "{rows} rows, {entries} entries: {found} in {taken} us")
}

fn main(rt: HostRuntime) -> io::Result<()> {
    timed(&rt, rt.alloc(), 1_024, 50_000)?;
    timed(&rt, rt.alloc(), 1_024, 500_000)?;
    timed(&rt, rt.alloc(), 65_536, 50_000)?;
    timed(&rt, rt.alloc(), 65_536, 500_000)
}
MAIN

run_program ' entries: '
