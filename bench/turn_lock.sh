#!/usr/bin/env bash
# Times holds and releases of the lock, with 0, 400 and 1,700 nanoseconds of work before each, by 1, 2, 4 and 8 threads, and
# std's Mutex in the same runs. Each line has the nanoseconds that a hold takes in the shortest of some runs, and how many times
# as fast as one thread that is.
# The program is made in a folder of its own outside the repository, and is proved and built there.
# Usage: bench/turn_lock.sh [HOLDS [RUNS]]
set -euo pipefail
top="$(cd "$(dirname "$0")/.." && pwd)"
source "$top/scripts/usage.sh"
take_help "$@"
holds="${1:-20000}"
runs="${2:-20}"
room="$(mktemp -d)"
trap 'rm -rf "$room"' EXIT

mkdir -p "$room/crates/lock_bench/src"
cp -r "$top/crates/turn_lock" "$room/crates/turn_lock"
rm -rf "$room/crates/turn_lock/out"
grep '^turn_lock' "$top/crates.txt" > "$room/crates.txt"
echo 'lock_bench: turn_lock anyhow' >> "$room/crates.txt"

cat > "$room/crates/lock_bench/src/main.rt" <<'PROGRAM'
//! Times holds of the lock over a counter, and of std's Mutex over the same, with work between two holds.
#![tactic(auto)]

ghost use Rattle.std.specs.Prelude.{◌≡◌, ◌+◌, ◌^◌, ◌<◌, [], IfOk};
ghost use Rattle.turn_lock.specs.Passes.{IsPassOf, HasAllNumbers, HasSameRange, first_of, end_of};

use std::alloc::{AllocError, Global};
use std::io;
use std::sync::{Mutex, Wait};
use std::thread::{Threads, join};
use std::time::{Clock, Duration, Instant};
use turn_lock::{History, Pass, Turn};

const HOLDS: u64 = HOLDS_HERE;
const RUNS: u64 = RUNS_HERE;

#[derive(Drop)]
struct Counter {
    count: u64,
}

impl History for Counter {
    type Entry = u32;

    ghost entries = { λ _. [] };

    ghost maker = { λ maker. maker };

    fn len(&self) -> u64 {
        0
    }
}

impl Counter {
    fn add(&mut self, number: u64) {
        self.count = self.count.wrapping_add(number);
    }
}

// How often a thread holds, and how many rounds of work it does before each hold.
#[derive(Clone, Copy)]
struct Plan {
    holds: u64,
    rounds: u64,
}

impl Plan {
    fn half(self) -> Plan {
        Plan {
            holds: self.holds / 2,
            rounds: self.rounds,
        }
    }
}

// Each round waits for the one before.
fn work(seed: u64, rounds: u64) -> u64 {
    let mut state = seed;
    for _ in 0..rounds {
        state = state
            .wrapping_mul(6364136223846793005)
            .wrapping_add(1442695040888963407);
    }
    state
}

fn opened(alloc: Global) -> Result<(Turn<Counter>, Pass<Counter>), AllocError>
    ensures { IfOk result (λ r. IsPassOf r.0 r.1 × HasAllNumbers r.1) }
{
    match Turn::new(alloc, Counter { count: 0 }) {
        Ok(made) => Ok(made),
        Err(_) => Err(AllocError),
    }
}

fn hold_all<R: Wait>(rt: &R, lock: &Turn<Counter>, pass: Pass<Counter>, plan: Plan) -> Pass<Counter>
    requires { IsPassOf lock.now pass }
    ensures lock { IsPassOf lock.now result }
    ensures range { HasSameRange pass result }
{
    let mut pass = pass;
    let mut state = 1;
    for _ in 0..plan.holds {
        state = work(state, plan.rounds);
        let mut held = lock.hold(rt, pass);
        held.value_mut().add(state);
        pass = held.release();
    }
    pass
}

fn in_two<R: Threads + Wait + Sync>(rt: &R, lock: &Turn<Counter>, pass: Pass<Counter>, plan: Plan) -> Pass<Counter>
    requires lock { IsPassOf lock.now pass }
    requires wide { (first_of pass + 1 < end_of pass) × (end_of pass < 2 ^ 32) }
    ensures lock { IsPassOf lock.now result }
    ensures range { HasSameRange pass result }
{
    let middle = pass.number() + 1;
    let (lower, upper) = lock.split(pass, middle);
    let half = plan.half();
    let (lower, upper) = join(
        rt,
        || -> Pass<Counter>
            requires { IsPassOf lock.now lower }
            ensures { IsPassOf lock.entry.now result × HasSameRange lower result }
        { hold_all(rt, lock, lower, half) },
        || -> Pass<Counter>
            requires { IsPassOf lock.now upper }
            ensures { IsPassOf lock.entry.now result × HasSameRange upper result }
        { hold_all(rt, lock, upper, half) },
    );
    lock.join(lower, upper)
}

fn in_four<R: Threads + Wait + Sync>(rt: &R, lock: &Turn<Counter>, pass: Pass<Counter>, plan: Plan) -> Pass<Counter>
    requires lock { IsPassOf lock.now pass }
    requires wide { (first_of pass + 3 < end_of pass) × (end_of pass < 2 ^ 32) }
    ensures lock { IsPassOf lock.now result }
    ensures range { HasSameRange pass result }
{
    let middle = pass.number() + 2;
    let (lower, upper) = lock.split(pass, middle);
    let half = plan.half();
    let (lower, upper) = join(
        rt,
        || -> Pass<Counter>
            requires { IsPassOf lock.now lower × (first_of lower + 1 < end_of lower) × (end_of lower < 2 ^ 32) }
            ensures { IsPassOf lock.entry.now result × HasSameRange lower result }
        { in_two(rt, lock, lower, half) },
        || -> Pass<Counter>
            requires { IsPassOf lock.now upper × (first_of upper + 1 < end_of upper) × (end_of upper < 2 ^ 32) }
            ensures { IsPassOf lock.entry.now result × HasSameRange upper result }
        { in_two(rt, lock, upper, half) },
    );
    lock.join(lower, upper)
}

fn in_eight<R: Threads + Wait + Sync>(rt: &R, lock: &Turn<Counter>, pass: Pass<Counter>, plan: Plan) -> Pass<Counter>
    requires lock { IsPassOf lock.now pass }
    requires wide { (first_of pass + 7 < end_of pass) × (end_of pass < 2 ^ 32) }
    ensures lock { IsPassOf lock.now result }
    ensures range { HasSameRange pass result }
{
    let middle = pass.number() + 4;
    let (lower, upper) = lock.split(pass, middle);
    let half = plan.half();
    let (lower, upper) = join(
        rt,
        || -> Pass<Counter>
            requires { IsPassOf lock.now lower × (first_of lower + 3 < end_of lower) × (end_of lower < 2 ^ 32) }
            ensures { IsPassOf lock.entry.now result × HasSameRange lower result }
        { in_four(rt, lock, lower, half) },
        || -> Pass<Counter>
            requires { IsPassOf lock.now upper × (first_of upper + 3 < end_of upper) × (end_of upper < 2 ^ 32) }
            ensures { IsPassOf lock.entry.now result × HasSameRange upper result }
        { in_four(rt, lock, upper, half) },
    );
    lock.join(lower, upper)
}

fn in_threads<R: Threads + Wait + Sync>(rt: &R, lock: &Turn<Counter>, pass: Pass<Counter>, threads: u64, plan: Plan) -> Pass<Counter>
    requires lock { IsPassOf lock.now pass }
    requires wide { (first_of pass + 7 < end_of pass) × (end_of pass < 2 ^ 32) }
    ensures lock { IsPassOf lock.now result }
    ensures range { HasSameRange pass result }
{
    match threads {
        1 => hold_all(rt, lock, pass, plan),
        2 => in_two(rt, lock, pass, plan),
        4 => in_four(rt, lock, pass, plan),
        _ => in_eight(rt, lock, pass, plan),
    }
}

fn lock_all<R: Wait>(rt: &R, lock: &Mutex<Counter>, plan: Plan) {
    let mut state = 1;
    for _ in 0..plan.holds {
        state = work(state, plan.rounds);
        lock.lock(rt).add(state);
    }
}

fn mutex_in_two<R: Threads + Wait + Sync>(rt: &R, lock: &Mutex<Counter>, plan: Plan) {
    let half = plan.half();
    join(rt, || lock_all(rt, lock, half), || lock_all(rt, lock, half));
}

fn mutex_in_four<R: Threads + Wait + Sync>(rt: &R, lock: &Mutex<Counter>, plan: Plan) {
    let half = plan.half();
    join(rt, || mutex_in_two(rt, lock, half), || mutex_in_two(rt, lock, half));
}

fn mutex_in_eight<R: Threads + Wait + Sync>(rt: &R, lock: &Mutex<Counter>, plan: Plan) {
    let half = plan.half();
    join(rt, || mutex_in_four(rt, lock, half), || mutex_in_four(rt, lock, half));
}

fn mutex_in_threads<R: Threads + Wait + Sync>(rt: &R, lock: &Mutex<Counter>, threads: u64, plan: Plan) {
    match threads {
        1 => lock_all(rt, lock, plan),
        2 => mutex_in_two(rt, lock, plan),
        4 => mutex_in_four(rt, lock, plan),
        _ => mutex_in_eight(rt, lock, plan),
    }
}

fn micros(time: Duration) -> u64 {
    u64::try_from(time.as_micros()).unwrap_or(u64::MAX)
}

// The microseconds of a million rounds of work, and at least one.
fn calibrate(rt: &impl Clock) -> io::Result<u64>
    ensures { IfOk result (λ n. 0 < n) }
{
    let mut least = u64::MAX;
    for _ in 0..10u64 {
        let start = Instant::now(rt)?;
        let state = work(least, 1_000_000);
        let took = micros(start.elapsed(rt)?);
        if state != 0 {
            least = least.min(took);
        }
    }
    Ok(least.max(1))
}

// The shortest of some runs, in microseconds.
fn turn_time<R: Threads + Wait + Sync + Clock>(rt: &R, lock: &Turn<Counter>, pass: Pass<Counter>, threads: u64, plan: Plan) -> io::Result<(u64, Pass<Counter>)>
    requires lock { IsPassOf lock.now pass }
    requires wide { (first_of pass + 7 < end_of pass) × (end_of pass < 2 ^ 32) }
    ensures { IfOk result (λ r. IsPassOf lock.now r.1 × HasSameRange pass r.1) }
{
    let mut pass = pass;
    let mut least = u64::MAX;
    for _ in 0..RUNS {
        let start = Instant::now(rt)?;
        pass = in_threads(rt, lock, pass, threads, plan);
        least = least.min(micros(start.elapsed(rt)?));
    }
    Ok((least, pass))
}

fn mutex_time<R: Threads + Wait + Sync + Clock>(rt: &R, lock: &Mutex<Counter>, threads: u64, plan: Plan) -> io::Result<u64> {
    let mut least = u64::MAX;
    for _ in 0..RUNS {
        let start = Instant::now(rt)?;
        mutex_in_threads(rt, lock, threads, plan);
        least = least.min(micros(start.elapsed(rt)?));
    }
    Ok(least)
}

fn main(rt: HostRuntime) -> anyhow::Result<()> {
    let mutex = Mutex::new(Counter { count: 0 });
    let (lock, pass) = opened(rt.alloc())?;
    let mut pass = pass;
    let million = calibrate(&rt)?;
    'works: for nanoseconds in [0u64, 400, 1700] {
        let rounds = nanoseconds * 1000 / million;
        'threads: for threads in [1u64, 2, 4, 8] {
            let plan = Plan {
                holds: HOLDS,
                rounds,
            };
            let timed = turn_time(&rt, &lock, pass, threads, plan)?;
            pass = timed.1;
            let turn = timed.0;
            let other = mutex_time(&rt, &mutex, threads, plan)?;
            println!(rt; "{nanoseconds} {threads} {turn} {other}")?;
        }
    }
    let (held, locked) = (lock.close(pass).count, mutex.into_inner().count);
    println!(rt; "sums {held} {locked}")?;
    Ok(())
}
PROGRAM
sed -i "s/HOLDS_HERE/$holds/; s/RUNS_HERE/$runs/" "$room/crates/lock_bench/src/main.rt"

mkdir -p "$room/crates/lock_bench/proofs/hold_all" "$room/crates/lock_bench/proofs/turn_time" "$room/crates/lock_bench/proofs/main"
for of in hold_all turn_time; do
    cat > "$room/crates/lock_bench/proofs/$of/Invariants.antt" <<PROOF
use Rattle.turn_lock.specs.Passes.{IsPassOf, HasSameRange}
use Rattle.lock_bench.proofs.$of.Given as goal

abbrev pub invariant-loop : goal.invariant-loop
invariant-loop g l = IsPassOf l.lock l.pass × HasSameRange l.fn.pass l.pass
PROOF
done
cat > "$room/crates/lock_bench/proofs/main/Invariants.antt" <<'PROOF'
use Rattle.turn_lock.specs.Passes.{IsPassOf, HasAllNumbers}
use Rattle.lock_bench.proofs.main.Given as goal

abbrev pub invariant-works : goal.invariant-works
invariant-works g l = IsPassOf l.lock l.pass × HasAllNumbers l.pass

abbrev pub invariant-threads : goal.invariant-threads
invariant-threads g l = IsPassOf l.lock l.pass × HasAllNumbers l.pass
PROOF
cd "$room/crates/lock_bench"
rt run 2> log > lines || { tail -n 30 log; exit 1; }
awk -v holds="$holds" '
    $1 == "sums" { if ($2 != $3) { print "the sums differ: " $2 " and " $3; exit 1 } next }
    $2 == 1 { printf "%s ns of work before each hold\n", $1; turn = $3; mutex = $4 }
    { printf "  %s thread%s turn_lock %6.0f ns a hold, %.2f times one;  Mutex %6.0f ns, %.2f times one\n",
          $2, $2 == 1 ? ": " : "s:", $3 * 1000 / holds, turn / $3, $4 * 1000 / holds, mutex / $4 }' lines
