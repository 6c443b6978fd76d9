#!/bin/sh
# Times regions: building, a repair after ten thousand links came elsewhere, and one after the start lost
# its links, where all that was reached goes. What the program's links
# are is not proved, so `rt try` interprets it: its figures tell one state of the code from another, run in
# turn on one machine, and not how long a call takes when it is compiled.
# Run from anywhere: sh bench/region.sh. It needs `rt`, and builds in a new folder under TMPDIR.
. "$(dirname "$0")/common.sh"
prepare region_bench 'ifmap_region ifmap_steps'
cat > "$work/crates/region_bench/src/main.rt" <<'RATTLE'
//! Builds and repairs regions of graphs that are given by a rule.
#![tactic(auto)]

ghost use Rattle.std.specs.Prelude.{◌≡◌, ◌<◌, ℕ, Option, Bool};

use ifmap_region::{Flip, LinkSource, Region, build, repair};
use ifmap_steps::Steps;
use std::alloc::Global;
use std::io;
use std::marker::Brand;
use std::rt::Runtime;
use std::sync::ledger::{Blank, Ledger};
use std::time::Instant;

/// Layers of `width` numbers, each linked with all of the layer before and of the one after.
#[derive(Drop)]
struct Layers {
    width: u64,
    layers: u64,
    // whether the start has no links
    cut: bool,
}

impl LinkSource for Layers {
    ghost count = { λ _ _. 0 };

    ghost link = { λ _ _ _. None };

    ghost terminal = { λ _ _. false };

    fn count(&self, number: u64) -> u64 {
        if number >= self.width.wrapping_mul(self.layers) {
            1
        } else {
            self.width.wrapping_mul(2)
        }
    }

    fn at<L: Ledger>(&self, number: u64, i: u64, steps: &mut Steps<L>) -> Option<u64> {
        steps.tick();
        let all = self.width.wrapping_mul(self.layers);
        if number >= all {
            return Some(number ^ 1);
        }
        let layer = number / self.width.max(1);
        if self.cut && (number == 0 || (layer == 1 && i == 0)) {
            return None;
        }
        if i < self.width {
            if layer == 0 { None } else { Some(layer.wrapping_sub(1).wrapping_mul(self.width).wrapping_add(i)) }
        } else if layer.wrapping_add(1) < self.layers {
            Some(layer.wrapping_mul(self.width).wrapping_add(i))
        } else {
            None
        }
    }

    fn is_terminal(&self, _number: u64) -> bool {
        false
    }
}

fn time_region<R: Runtime, L: Ledger>(rt: &R, alloc: Global, width: u64, layers: u64, blank: Blank) -> io::Result<()> {
    let mut steps: Steps<L> = Steps::from_blank(blank);
    let graph = Layers { width, layers, cut: false };
    let mut built = u128::MAX;
    for _ in 0..3 {
        let start = Instant::now(rt)?;
        let region = build(alloc, 0, 1_000_000, &graph, &mut steps).map_err(io::Error::from)?;
        built = built.min(start.elapsed(rt)?.as_micros());
        if region.marks.len() == 0 {
            return Ok(());
        }
    }
    let mut region = build(alloc, 0, 1_000_000, &graph, &mut steps).map_err(io::Error::from)?;
    let mut flips = Vec::new(alloc);
    let far = width.wrapping_mul(layers).wrapping_add(2) / 2 * 2;
    for i in 0u64..10_000 {
        let a = far.wrapping_add(i.wrapping_mul(2));
        flips.push(Flip { a, b: a ^ 1, added: true }).map_err(io::Error::from)?;
    }
    let mut repaired = u128::MAX;
    for _ in 0..3 {
        let start = Instant::now(rt)?;
        let patch = repair(alloc, &region, &graph, flips.as_slice(), &mut steps).map_err(io::Error::from)?;
        repaired = repaired.min(start.elapsed(rt)?.as_micros());
        region.reserve(&patch).map_err(io::Error::from)?;
        region.commit(patch);
    }
    let cut = Layers { width, layers, cut: true };
    let mut flips = Vec::new(alloc);
    for i in 0..width {
        flips.push(Flip { a: 0, b: width.wrapping_add(i), added: false }).map_err(io::Error::from)?;
    }
    let mut emptied = u128::MAX;
    for _ in 0..3 {
        let start = Instant::now(rt)?;
        let patch = repair(alloc, &region, &cut, flips.as_slice(), &mut steps).map_err(io::Error::from)?;
        emptied = emptied.min(start.elapsed(rt)?.as_micros());
        if patch.is_empty() {
            return Ok(());
        }
    }
    rt.println(format_args!("{layers} layers of {width}: built in {built} us; 10000 links that come elsewhere repaired in {repaired} us; start cut off in {emptied} us"))
}

fn time_one<R: Runtime>(rt: &R, alloc: Global, width: u64, layers: u64) -> io::Result<()> {
    time_region::<R, Brand>(rt, alloc, width, layers, Blank::new(1))
}

fn main(rt: HostRuntime) -> io::Result<()> {
    let alloc = rt.alloc();
    time_one(&rt, alloc, 1, 100)?;
    time_one(&rt, alloc, 20, 10)?;
    Ok(())
}
RATTLE
cd "$work/crates/region_bench"
rt try
