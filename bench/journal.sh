#!/usr/bin/env bash
# Times what becomes of a journal of one hundred thousand entries and of a million: it is written entry by entry, printed,
# read and erased. Ten times the entries should take ten times the time.
#
# Makes a program in a temporary folder, and lets rt prove and build it there.
set -euo pipefail
source "$(dirname "$0")/program.sh"
begin_program journal_times "$(crates_below journal_text)"
cat > "$program/src/main.rt" <<'MAIN'
#![tactic(auto)]

use cache_ident::{Cause, Ident, Kind, Name, NoMemory, SpaceNo, ThreadNo, Vpn};
use journal_text::{print, read};
use run_journal::{Entry, Journal};
use std::alloc::Global;
use std::io;
use std::time::Instant;

// A row that is loaded, used and unloaded, again and again.
fn entry(number: u32) -> Entry {
    let ident = Ident {
        kind: Kind::Mapping,
        slot: 0,
        serial: u64::from(number / 3),
    };
    let thread = ThreadNo(number % 16_384);
    match number % 3 {
        0 => Entry::Loaded {
            ident,
            name: Name::Mapping(SpaceNo(0), Vpn(number % 1_048_576)),
            cpu: 0,
        },
        1 => Entry::Ran {
            thread,
            steps: 1,
            cpu: 0,
        },
        _ => Entry::WrittenBack {
            ident,
            cause: Cause::Unloaded,
            cpu: 0,
        },
    }
}

fn journal(alloc: Global, entries: u32) -> Result<Journal, NoMemory> {
    let mut journal = Journal::new(alloc);
    for number in 0..entries {
        journal.push(entry(number))?;
    }
    Ok(journal)
}

fn timed(rt: &(impl Print + std::rt::Clock), alloc: Global, entries: u32) -> io::Result<()> {
    let start = Instant::now(rt)?;
    let Ok(journal) = journal(alloc, entries) else {
        return Ok(());
    };
    let pushed = start.elapsed(rt)?.as_micros();
    let start = Instant::now(rt)?;
    let Ok(text) = print(alloc, &journal) else {
        return Ok(());
    };
    let printed = start.elapsed(rt)?.as_micros();
    let start = Instant::now(rt)?;
    let count = match read(alloc, &text) {
        Ok(journal) => journal.len(),
        Err(_) => 0,
    };
    let taken = start.elapsed(rt)?.as_micros();
    let start = Instant::now(rt)?;
    let events = match journal.erase() {
        Ok(events) => events.len(),
        Err(_) => 0,
    };
    let erased = start.elapsed(rt)?.as_micros();
    println!(rt; "{entries} entries: push {pushed} us, print {printed} us, read {taken} us (counted {count}), erase {erased} us (counted {events})")
}

fn main(rt: HostRuntime) -> io::Result<()> {
    timed(&rt, rt.alloc(), 100_000)?;
    timed(&rt, rt.alloc(), 1_000_000)
}
MAIN

run_program ' entries: '
