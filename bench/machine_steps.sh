#!/usr/bin/env bash
# Times a million steps of one thread on the machine with unlimited tables, with 16 rows declared and with 262,144.
# A step finds its rows in a time logarithmic in their number, so the ratio should stay under 2.
#
# Makes a program in a temporary folder, and lets rt prove and build it there.
set -euo pipefail
source "$(dirname "$0")/program.sh"
begin_program step_times "$(crates_below flat_machine)"
cat > "$program/src/main.rt" <<'MAIN'
#![tactic(auto)]

use cache_ident::{Caps, Frame, KernelNo, NoMemory, SpaceNo, ThreadNo, Vpn};
use flat_machine::{Decl, Event, Flat, Machine};
use phys_groups::Flags;
use std::alloc::Global;
use std::io;
use std::time::Instant;

const STEPS: u32 = 1_000_000;

const CAPS: Caps = Caps {
    kernels: 16,
    spaces: 64,
    threads: 256,
    mappings: 65_536,
};

const LIMITS: Caps = Caps {
    kernels: 1,
    spaces: 0,
    threads: 0,
    mappings: 0,
};

fn declare(flat: &mut Flat, decl: Decl) -> Result<(), NoMemory> {
    flat.apply(&Event::Declare(decl))
}

// A thread that jumps to itself in page 0, among so many rows.
fn machine(alloc: Global, rows: u32) -> Result<Flat, NoMemory> {
    let mut flat = Flat::new(alloc);
    let machine = Machine {
        groups: 1,
        caps: CAPS,
    };
    declare(&mut flat, Decl::Machine { machine })?;
    declare(
        &mut flat,
        Decl::Kernel {
            no: KernelNo(0),
            limits: LIMITS,
        },
    )?;
    declare(
        &mut flat,
        Decl::Right {
            kernel: KernelNo(0),
            group: 0,
            read: true,
            write: false,
        },
    )?;
    declare(
        &mut flat,
        Decl::Space {
            no: SpaceNo(0),
            kernel: KernelNo(0),
        },
    )?;
    declare(
        &mut flat,
        Decl::Thread {
            no: ThreadNo(0),
            space: SpaceNo(0),
            pc: 0,
            priority: 0,
            a0: 0,
            a1: 0,
        },
    )?;
    let flags = Flags {
        r: false,
        w: false,
        x: true,
        m: false,
    };
    for vpn in 0..rows {
        declare(
            &mut flat,
            Decl::Map {
                space: SpaceNo(0),
                vpn: Vpn(vpn),
                frame: Frame(0),
                flags,
                receiver: None,
            },
        )?;
    }
    declare(
        &mut flat,
        Decl::Word {
            frame: Frame(0),
            offset: 0,
            value: 0x0000_006f,
        },
    )?;
    Ok(flat)
}

fn steps(flat: &mut Flat) -> Result<(), NoMemory> {
    for _ in 0..STEPS {
        flat.apply(&Event::Step(ThreadNo(0)))?;
    }
    Ok(())
}

// The time of the steps, in microseconds.
fn timed(rt: &(impl Print + std::rt::Clock), alloc: Global, rows: u32) -> io::Result<u128> {
    let Ok(mut flat) = machine(alloc, rows) else {
        return Ok(0);
    };
    let start = Instant::now(rt)?;
    let _ = steps(&mut flat);
    let time = start.elapsed(rt)?.as_micros();
    let count = flat.rows().len();
    println!(rt; "{STEPS} steps among {count} rows: {time} us")?;
    Ok(time)
}

fn main(rt: HostRuntime) -> io::Result<()> {
    let few = timed(&rt, rt.alloc(), 16)?;
    let many = timed(&rt, rt.alloc(), 262_144)?;
    if few > 0 {
        let ratio = many.saturating_mul(100) / few;
        println!(rt; "with 262,144 rows in place of 16 it takes {ratio} hundredths of the time")?;
    }
    Ok(())
}
MAIN

run_program '^1000000 steps among \| hundredths '
