#!/usr/bin/env bash
# Usage: bench/quanta.sh [PEERS [LOOP]]
# Times 20 million steps of a loop over copied pages, and prints millions of steps a second:
# - alone: one long run, whose pages are copied once, as far as there is room for them;
# - quanta: 256 steps at a time, as the program takes them, with 64 views. Each begins with the pages that the thread touched last. Pages are
#   kept over a quantum, and copied anew where their frame was changed since, which is told by a stamp for each frame; and of what a
#   quantum stored to, the part that changed is copied back;
# - few: the same with 8 views.
# Quanta of a loop of few pages should be no slower with 64 views than with 8. A loop over 64 pages shows what the views beyond 8 are for.
# PEERS is a folder with a plain interpreter in C and loops that it reads. Where it is given, its loops mix and stride are taken, or its loop
# LOOP alone, and the interpreter runs in turn with the program; the ratios are of the best times of each. Its loop stride goes over 64
# pages, five steps on each, and quanta of it should reach 0.5 of the peer. Else there are no ratios to a peer, and the loops are two of
# bench/loops: adding adds the words of a page and stores the sum, and striding adds to a word of each of 64 pages in turn. No board is
# asked: what its calls take, bench/runs.sh times with the whole program.
#
# Makes a program in a temporary folder, and lets rt prove and build it there for each loop. It wants that nobody else uses the machine.
set -euo pipefail
source "$(dirname "$0")/../scripts/usage.sh"
take_help "$@"
peers="${1:-}"
if [ -n "$peers" ]; then peers="$(cd "$peers" && pwd)"; fi
source "$(dirname "$0")/program.sh"
if [ -n "$peers" ]; then
    folder="$peers/loops"
    read -r -a loops <<< "${2:-mix stride}"
else
    # adding: x1 = 0x11000; again: x2 = x1, x3 = x1 + 2044; word: x4 = [x2], x5 += x4, [x2] = x5, x2 += 4, to word while
    # x2 < x3; to again
    # striding: x1 = 0x11000, x5 = 0x1000, x4 = 0x51000; again: x2 = x1; page: x3 = [x2], x3 += 1, [x2] = x3, x2 += x5, to page
    # while x2 isn't x4; to again
    folder="$top/bench/loops"
    loops=(adding striding)
fi
begin_program quantum_times "$(crates_below quantum)"

turns=40

# The rows and the words of a scenario as constants.
constants() {
    awk '
        function flag(c) { return index($5, c) ? "true" : "false" }
        $1 == "thread" { pc = $4 }
        $1 == "map" {
            rows = rows sprintf("Row { vpn: %d, frame: %d, flags: Flags { r: %s, w: %s, x: %s, m: %s } },\n", $3, $4, flag("r"), flag("w"), flag("x"), flag("m"))
            row_count++
        }
        $1 == "word" {
            lines = lines sprintf("Line { at: %d, words: [", $2 * 4096 + $3)
            for (i = 4; i < 12; i++) lines = lines (i > NF ? "0, " : "0x" $i ", ")
            lines = lines "] },\n"
            line_count++
        }
        END {
            printf "const START: u32 = %d;\n\nconst ROWS: [Row; %d] = [\n%s];\n\nconst LINES: [Line; %d] = [\n%s];\n\n", pc, row_count, rows, line_count, lines
        }'
}

# main_of LOOP: the program that times that loop.
main_of() {
    cat <<'HEAD'
#![tactic(auto)]

ghost use Rattle.std.specs.Prelude.{◌≡◌, ◌%◌, ◌≤◌, length};

use cache_ident::{Frame, Ident, NoMemory, ThreadNo, Vpn};
use page_views::{MOST_RECENT, MOST_VIEWS, PageView, Part};
use phys_groups::{Flags, PAGE_BYTES, PAGE_LENGTH};
use quantum::{Paused, Quantum};
use rv32_exec::Context;
use std::alloc::Global;
use std::io;
use std::time::Instant;

const STEPS: u32 = 20_000_000;

const QUANTUM: u32 = 256;

const FEW_VIEWS: usize = 8;

// How often a run may ask for a page, and one time more.
const TURNS: u32 = 65;

const FRAMES: usize = 128;

// What stores change is told by lines of so many bytes.
const LINE: usize = 64;

#[derive(Clone, Copy)]
struct Row {
    vpn: u32,
    frame: u32,
    flags: Flags,
}

#[derive(Clone, Copy)]
struct Line {
    at: u32,
    words: [u32; 8],
}

HEAD
    constants < "$folder/$1.scn"
    cat <<'MAIN'
// The frames as bytes, when each was changed last, and how many quanta there were.
#[derive(Drop)]
struct Frames {
    bytes: Vec<u8>,
    stamps: Vec<u64>,
    now: u64,
    ghost whole: { length bytes.items ≡ 524288 },
    ghost stamped: { length stamps.items ≡ 128 },
}

impl Frames {
    // The frames, with the words of the loop.
    fn new(alloc: Global) -> Result<Frames, NoMemory> {
        let mut frames = Frames {
            bytes: vec![in alloc; 0; FRAMES * PAGE_LENGTH]?,
            stamps: vec![in alloc; 0; FRAMES]?,
            now: 0,
        };
        for line in LINES.iter() {
            for (i, word) in line.words.iter().enumerate() {
                frames.put(line.at as usize / 4 + i, *word);
            }
        }
        Ok(frames)
    }

    fn put(&mut self, index: usize, word: u32) {
        if index < FRAMES * PAGE_LENGTH / 4 {
            self.bytes[4 * index..4 * index + 4].copy_from_slice(&word.to_le_bytes());
        }
    }

    // Fills the view of a page, of what the quantum keeps where the frame has it still, and answers whether it did.
    fn fill(&self, quantum: &mut Quantum, vpn: Vpn) -> bool {
        let Some(row) = row_of(vpn) else {
            return false;
        };
        if !quantum.can_fill(vpn) {
            return false;
        }
        let frame = row.frame as usize % FRAMES;
        let stamp = self.stamps[frame];
        let (no, row_is) = (Frame(frame as u32), Ident::default());
        if !quantum.refill(vpn, no, row.flags, row_is, stamp) {
            let bytes = &self.bytes[frame * PAGE_LENGTH..frame * PAGE_LENGTH + PAGE_LENGTH];
            quantum.fill_as_of(vpn, no, row.flags, row_is, bytes, self.now);
        }
        true
    }

    // Fills the views of pages that the thread touched last.
    fn fill_recent(&self, quantum: &mut Quantum) {
        for place in 0..MOST_RECENT {
            let Some(vpn) = quantum.recent(place) else {
                return;
            };
            let _filled = self.fill(quantum, vpn);
        }
    }

    // Takes steps up to a limit, and fills the views that they need, as far as there is room.
    fn run(&self, quantum: &mut Quantum, limit: u32) {
        for _turn in 0..TURNS {
            match quantum.run(limit) {
                Paused::Miss { va, .. } if self.fill(quantum, Vpn(va / PAGE_BYTES)) => {}
                _ => return,
            }
        }
    }

    // Whether the frames have still what the touched views were copied from.
    fn agrees(&self, quantum: &Quantum) -> bool {
        quantum
            .views()
            .iter()
            .all(|view| !view.touched() || self.stays(view))
    }

    // Whether a frame wasn't changed since its view was copied.
    fn stays(&self, view: &PageView) -> bool {
        match (self.stamps.get(view.frame().0 as usize), view.taken()) {
            (Some(stamp), Some(taken)) => *stamp <= taken,
            _ => false,
        }
    }

    // Copies what was stored to the views to their frames.
    fn write(&mut self, quantum: &Quantum) {
        for view in quantum.views().iter() {
            if view.touched() && !view.is_as_copied() {
                self.write_view(view);
            }
        }
    }

    fn write_view(&mut self, view: &PageView) {
        let frame = view.frame().0 as usize;
        let Part { from, to } = view.changed();
        if frame < FRAMES && from < to && to <= PAGE_LENGTH {
            let start = frame * PAGE_LENGTH;
            let bytes = &mut self.bytes[start..start + PAGE_LENGTH];
            // One line is a few moves, and no call.
            if to - from == LINE {
                bytes[from..from + LINE].copy_from_slice(&view.present()[from..from + LINE]);
            } else {
                bytes[from..to].copy_from_slice(&view.present()[from..to]);
            }
            self.stamps[frame] = self.now;
        }
    }

    // Steps alone.
    fn alone(&self, quantum: &mut Quantum, context: Context) -> u32 {
        if context.pc % 4 == 0 {
            quantum.forget();
            quantum.begin(context, ThreadNo(0));
            self.run(quantum, STEPS);
        }
        quantum.steps()
    }

    // As many steps as quanta, or up to a quantum that takes none.
    fn quanta(&mut self, quantum: &mut Quantum, context: Context) -> u32 {
        quantum.forget();
        let mut context = context;
        let mut steps = 0u32;
        for _quantum in 0..STEPS {
            if context.pc % 4 != 0 || steps >= STEPS {
                return steps;
            }
            let taken = self.quantum(quantum, context);
            if taken == 0 {
                return steps;
            }
            steps = steps.saturating_add(taken);
            context = *quantum.context();
        }
        steps
    }

    // One quantum. It answers how many steps were taken.
    fn quantum(&mut self, quantum: &mut Quantum, context: Context) -> u32
        requires { context.pc % 4 ≡ 0 }
    {
        self.now = self.now.wrapping_add(1);
        quantum.begin(context, ThreadNo(0));
        self.fill_recent(quantum);
        self.run(quantum, QUANTUM);
        if !self.agrees(quantum) {
            return 0;
        }
        let steps = quantum.steps();
        self.write(quantum);
        quantum.happened(self.now);
        steps
    }
}

// The row of a page.
fn row_of(vpn: Vpn) -> Option<Row> {
    if vpn.0 < ROWS[0].vpn {
        return None;
    }
    match ROWS.get((vpn.0 - ROWS[0].vpn) as usize) {
        Some(row) if row.vpn == vpn.0 => Some(*row),
        _ => None,
    }
}

fn print_rate(rt: &impl Print, name: &str, steps: u32, micros: u128) -> io::Result<()> {
    let rate = u128::from(steps) * 1_000 / micros.max(1);
    println!(rt; "{name} {rate} thousand steps a second ({steps} steps)")
}

// Times the loop with so many views.
fn timed(rt: &(impl Print + std::rt::Clock), alloc: Global, views: usize, name: &str) -> io::Result<()>
    requires { views ≤ 64 }
{
    let context = Context {
        regs: [0; 32],
        pc: START,
    };
    let Ok(mut frames) = Frames::new(alloc) else {
        return Ok(());
    };
    let Ok(mut quantum) = Quantum::new(alloc, views) else {
        return Ok(());
    };
    let start = Instant::now(rt)?;
    let steps = frames.quanta(&mut quantum, context);
    print_rate(rt, name, steps, start.elapsed(rt)?.as_micros())?;
    if views < MOST_VIEWS {
        return Ok(());
    }
    let start = Instant::now(rt)?;
    let steps = frames.alone(&mut quantum, context);
    print_rate(rt, "alone", steps, start.elapsed(rt)?.as_micros())
}

fn main(rt: HostRuntime) -> io::Result<()> {
    timed(&rt, rt.alloc(), MOST_VIEWS, "quanta")?;
    timed(&rt, rt.alloc(), FEW_VIEWS, "few")
}
MAIN
}

# times LOOP: the times of all turns.
times() {
    local turn
    for ((turn = 0; turn < turns; turn++)); do
        "$place/$1"
        if [ -n "$peers" ]; then
            # It ends with 2, since all steps are taken.
            "$place/peers/rvi_paged" --time --steps 20000000 < "$folder/$1.scn" 2>&1 > /dev/null |
                awk '{ printf "peer %d thousand steps a second (%d steps)\n", $NF / 1000, $2 }' || true
        fi
    done
}

# best LOOP: the best of these, and their ratios.
best() {
    awk -v loop="$1" '
        # One long run ends early where there is no room for all pages of a loop, and tells nothing then.
        $1 == "alone" && $0 !~ /[(]20000000 steps[)]/ { next }
        !($1 in best) || $2 > best[$1] { best[$1] = $2; line[$1] = $0 }
        function said(value, bar) { return value < bar ? sprintf(", below %.2f", bar) : "" }
        END {
            print loop
            if ("alone" in best) print "  " line["alone"]
            print "  " line["quanta"]
            print "  " line["few"]
            ratio = best["quanta"] / best["few"]
            printf "  quanta with 64 views beside 8: %.2f times as fast%s\n", ratio, loop ~ /^strid/ ? "" : said(ratio, 1)
            if ("peer" in best) {
                print "  " line["peer"]
                if ("alone" in best) printf "  ratio of steps alone to the peer: %.2f\n", best["alone"] / best["peer"]
                ratio = best["quanta"] / best["peer"]
                printf "  ratio of quanta to the peer: %.2f%s\n", ratio, loop == "stride" ? said(ratio, 0.5) : ""
            }
        }'
}

# Proves, builds and runs the program of each loop once. The turns run what was built.
for loop in "${loops[@]}"; do
    main_of "$loop" > "$program/src/main.rt"
    run_program ' thousand steps a second' > /dev/null
    cp "$program/out/quantum_times" "$place/$loop"
done
if [ -n "$peers" ]; then make -s -C "$peers" B="$place/peers"; fi
for loop in "${loops[@]}"; do
    times "$loop" | best "$loop"
done
