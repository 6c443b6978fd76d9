#!/bin/sh
# Counts the asks a second of 1, 2, 4 and 16 workers over one hall, at machines whose step takes
# about 0.04, 3 and 30 microseconds, and prints them as ratios to one worker.
# Run from anywhere: sh bench/hall.sh [ROUNDS]. It needs `rt`, and builds in a new folder under
# TMPDIR. Of ROUNDS rounds (3) it takes the best.
. "$(dirname "$0")/common.sh"
prepare hall_bench 'ifmap_hall'
crate="$work/crates/hall_bench"
mkdir -p "$crate/proofs/work" "$crate/proofs/hand_out"
touch "$crate/proofs/Lib.antt"
cat > "$crate/proofs/work/Invariants.antt" <<'ANTT'
use Rattle.std.proofs.Common.{◌≡◌}
use Rattle.ifmap_hall.specs.Passes.{IsOf, view_of}
use Rattle.hall_bench.proofs.work.Given as goal

abbrev pub invariant-loop : goal.invariant-loop
invariant-loop g l = IsOf l.hall l.pass × ((view_of l.pass).terms ≡ (view_of l.fn.worker.pass).terms)
ANTT
cat > "$crate/proofs/hand_out/Invariants.antt" <<'ANTT'
use Rattle.std.proofs.Common.{◌≤◌, All}
use Rattle.ifmap_hall.specs.Passes.{IsOf, view_of}
use Rattle.hall_bench.proofs.hand_out.Given as goal

abbrev pub invariant-loop : goal.invariant-loop
invariant-loop l =
    IsOf l.hall l.pass × (1 ≤ (view_of l.pass).terms.heaviest)
    × All (λ s. IsOf l.hall s.pass × (1 ≤ (view_of s.pass).terms.heaviest)) l.workers.items
ANTT
cat > "$crate/src/main.rt" <<'RATTLE'
//! Workers that ask one hall as often as they can.
#![tactic(auto)]

ghost use Rattle.std.specs.Prelude.{◌≡◌, ◌+◌, ◌*◌, ◌%◌, ◌^◌, ◌<◌, ◌≤◌, false, length, All, IfOk};
ghost use Rattle.ifmap_hall.specs.Passes.{IsOf, view_of};

use ifmap_hall::{Asked, Hall, Machine, Pass};
use std::alloc::{AllocError as NoMemory, Global};
use std::rt::Runtime;
use std::sync::Wait;
use std::thread::Threads;
use std::time::Instant;
use std::{env, hint, io, thread};

/// Counts its events, each the number of pauses that its step takes.
#[derive(Drop)]
struct Counter {
    count: u64,
}

impl Machine for Counter {
    type Event = u64;

    type Reply = u64;

    ghost weight_of = { λ _. 1 };

    ghost holds_on = { λ _ _. false };

    ghost next = { λ m e. record { count = (m.count + 1) % 2 ^ 64 } };

    ghost reply = { λ m e. m.count };

    ghost some_state = { record { count = 0 } };

    fn weight(&self, _event: &u64) -> u64 {
        1
    }

    fn would_hold(&self, _event: &u64) -> bool {
        false
    }

    fn step(&mut self, _alloc: Global, event: &u64) -> Result<u64, NoMemory> {
        pause(*event);
        let before = self.count;
        self.count = before.wrapping_add(1);
        Ok(before)
    }
}

fn pause(count: u64) {
    for _ in 0..count {
        hint::spin_loop();
    }
}

#[derive(Drop)]
struct Worker {
    pass: Pass<Counter>,
    asks: u64,
    pauses: u64,
    done: u64,
}

fn work<R: Wait>(rt: &R, alloc: Global, hall: &Hall<Counter>, worker: &mut Worker)
    requires hall { IsOf hall.now worker.old.pass }
    requires light { 1 ≤ (view_of worker.old.pass).terms.heaviest }
    ensures hall { IsOf hall.now worker.new.pass }
{
    let Worker { pass, asks, pauses, done } = worker;
    for _ in 0..*asks {
        if let Asked::Done { .. } = hall.ask(rt, alloc, pass, *pauses) {
            *done = done.wrapping_add(1);
        }
    }
}

fn run_all<R: Threads + Wait + Sync>(
    rt: &R,
    alloc: Global,
    hall: &Hall<Counter>,
    workers: &mut [Worker],
)
    requires { All (λ s. IsOf hall.now s.pass × (1 ≤ (view_of s.pass).terms.heaviest)) workers.old }
{
    if workers.is_empty() {
        return;
    }
    let threads = workers.len();
    thread::for_each_mut(
        rt,
        workers,
        threads,
        &|_, worker: &mut Worker|
            requires { IsOf hall.now worker.now.pass × (1 ≤ (view_of worker.now.pass).terms.heaviest) }
        { work(rt, alloc, hall, worker) },
    );
}

fn hand_out(
    alloc: Global,
    hall: &Hall<Counter>,
    pass: &mut Pass<Counter>,
    count: u64,
    asks: u64,
    pauses: u64,
) -> Result<Vec<Worker>, NoMemory>
    requires pass { IsOf hall.now pass.old × (1 ≤ (view_of pass.old).terms.heaviest) }
    ensures { IfOk result (λ v. All (λ s. IsOf hall.now s.pass
        × (1 ≤ (view_of s.pass).terms.heaviest)) v.items) }
{
    let mut workers = Vec::new(alloc);
    for _ in 0..count {
        let own = hall.split(pass)?;
        workers.push(Worker { pass: own, asks, pauses, done: 0 })?;
    }
    Ok(workers)
}

/// The asks a second, of so many in all.
fn rate<R: Threads + Wait + Sync + Runtime>(
    rt: &R,
    alloc: Global,
    count: u64,
    asks: u64,
    pauses: u64,
) -> io::Result<u128> {
    let (hall, mut pass) =
        Hall::begin(alloc, Counter { count: 0 }, Counter { count: 0 }, 1 << 40, 1)
            .map_err(io::Error::from)?;
    let mut workers = hand_out(alloc, &hall, &mut pass, count, asks / count.max(1), pauses)
        .map_err(io::Error::from)?;
    let start = Instant::now(rt)?;
    run_all(rt, alloc, &hall, workers.as_mut_slice());
    let nanos = start.elapsed(rt)?.as_nanos();
    let mut done = 0u64;
    for worker in workers.as_slice() {
        done = done.wrapping_add(worker.done);
    }
    Ok(u128::from(done).wrapping_mul(1_000_000_000) / nanos.max(1))
}

fn best<R: Threads + Wait + Sync + Runtime>(
    rt: &R,
    alloc: Global,
    count: u64,
    asks: u64,
    pauses: u64,
    rounds: u64,
) -> io::Result<u128> {
    let mut best = 0u128;
    for _ in 0..rounds {
        best = best.max(rate(rt, alloc, count, asks, pauses)?);
    }
    Ok(best)
}

fn rounds_of<R: env::Env + Alloc>(rt: &R) -> u64 {
    let Ok(words) = env::args(rt) else {
        return 3;
    };
    let mut rounds = 3;
    for word in words {
        if let Ok(number) = word.as_str().parse::<u64>() {
            rounds = number;
        }
    }
    rounds
}

fn main(rt: HostRuntime) -> io::Result<()> {
    let alloc = rt.alloc();
    let rounds = rounds_of(&rt);
    let start = Instant::now(&rt)?;
    pause(1_000_000);
    let picos = (start.elapsed(&rt)?.as_nanos() / 1000).max(1);
    let micro = u64::try_from(1_000_000 / picos).unwrap_or(1).max(1);
    for (micros, asks) in [(0, 400_000), (3, 60_000), (30, 8_000)] {
        let pauses = micro.wrapping_mul(micros);
        let one = best(&rt, alloc, 1, asks, pauses, rounds)?.max(1);
        println!(rt; "a step of {micros} us: one worker makes {one} asks a second")?;
        for count in [2, 4, 16] {
            let many = best(&rt, alloc, count, asks, pauses, rounds)?;
            let ratio = many.wrapping_mul(100) / one;
            println!(rt; "  {count} workers: {many} asks a second, {ratio} hundredths of that")?;
        }
    }
    Ok(())
}
RATTLE
cd "$crate"
rt run -- "${1:-3}"
