#!/usr/bin/env bash
# Times `assemble` over one million lines and over two, half of them labels, in blocks of 1,024 words and in
# blocks of 16,384. Twice the lines should take twice the time, and longer blocks little more, since a label
# costs the logarithm of their number.
#
# Makes a program in a temporary folder, and lets rt prove and build it there.
set -euo pipefail
source "$(dirname "$0")/program.sh"
begin_program assembly_times "$(crates_below rv32_asm)"
cat > "$program/src/main.rt" <<'MAIN'
#![tactic(auto)]

use rv32_asm::assemble;
use std::alloc::{AllocError, Global};
use std::io;
use std::string::String;
use std::time::Instant;

// So many labels, each with a branch back to it.
fn block(alloc: Global, labels: u32) -> Result<String, AllocError> {
    let mut text = String::new(alloc);
    for label in 0..labels {
        let lines = format!(in alloc; "label{label}:\nbne a0, zero, label{label}\n")?;
        text.push_str(&lines)?;
    }
    Ok(text)
}

fn words_of(alloc: Global, text: &str, blocks: u32) -> usize {
    let mut words: usize = 0;
    for _ in 0..blocks {
        if let Ok(found) = assemble(alloc, text, u32::MAX) {
            words = words.wrapping_add(found.len());
        }
    }
    words
}

fn timed(rt: &(impl Print + std::rt::Clock), alloc: Global, labels: u32, blocks: u32) -> io::Result<()> {
    let Ok(text) = block(alloc, labels) else {
        return Ok(());
    };
    let start = Instant::now(rt)?;
    let words = words_of(alloc, &text, blocks);
    let micros = start.elapsed(rt)?.as_micros();
    println!(rt; "{blocks} blocks of {labels} labels and words: {micros} us (counted {words})")
}

fn main(rt: HostRuntime) -> io::Result<()> {
    timed(&rt, rt.alloc(), 1024, 488)?;
    timed(&rt, rt.alloc(), 1024, 976)?;
    timed(&rt, rt.alloc(), 16_384, 31)?;
    timed(&rt, rt.alloc(), 16_384, 61)
}
MAIN

run_program ' labels and words'
