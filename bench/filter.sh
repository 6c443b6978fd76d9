#!/bin/sh
# Times `parse` of texts of 1,000, 10,000 and 100,000 names, each beside a copy of the text's bytes, and `matches` of a
# filter of ten comparisons, joined by `or`, on an element with twenty attributes and twenty children,
# of which only the last comparison holds: each of the others looks through all attributes or all
# children. The least of COUNT times, of which one is a parse, a copy and ten thousand calls of
# `matches`.
# Run from anywhere: sh bench/filter.sh [COUNT]; COUNT is at most 1,000, and 100 if it is left out. It
# needs `rt`, and builds in a new folder under TMPDIR.
. "$(dirname "$0")/common.sh"
count=${1:-100}
prepare filter_bench 'ifmap_elem ifmap_filter ifmap_reader'
cat > "$work/crates/filter_bench/src/main.rt" <<'RATTLE'
//! Parses one text, copies it, and matches one element, as many times as the first word says.
#![tactic(auto)]

use ifmap_elem::{Attribute, Child, Element, Many, Name, Text};
use ifmap_filter::{Filter, Predicate, Test};
use ifmap_reader::Scope;
use std::alloc::{AllocError as NoMemory, Global};
use std::rt::Runtime;
use std::time::Instant;
use std::{env, io};

const META: &str = "http://www.trustedcomputinggroup.org/2010/IFMAP-METADATA/2";

const LOCALS: [&str; 20] = ["name", "discovered-time", "discoverer-id", "magnitude", "confidence", "significance", "type", "other-type-definition", "information", "start-time", "end-time", "dhcp-server", "ifmap-cardinality", "ifmap-publisher-id", "ifmap-timestamp", "administrative-domain", "device-type", "string", "value", "vulnerability-uri"];

const SIZES: [usize; 3] = [1_000, 10_000, 100_000];

const CALLS: usize = 10_000;

fn leaf(alloc: Global, local: &str) -> Result<Child, NoMemory> {
    let mut members = Vec::new(alloc);
    members.push(Child::Text(Text::from_str(alloc, "some words that a sensor wrote")?))?;
    Ok(Child::Element(Element::with_local(alloc, local, Vec::new(alloc), members)?))
}

fn metadata(alloc: Global) -> Result<Element, NoMemory> {
    let mut attributes = Vec::new(alloc);
    let mut members = Vec::new(alloc);
    for local in LOCALS {
        attributes.push(Attribute::with_local(alloc, local, Text::from_str(alloc, "words")?)?)?;
        members.push(leaf(alloc, local)?)?;
    }
    let name = Name::new(alloc, META, "event")?;
    let attributes = Many(attributes);
    let children = Many(members);
    Ok(Element { name, attributes, children })
}

fn attribute_asked(alloc: Global, value: &str) -> Result<Predicate, NoMemory> {
    let local = Text::from_str(alloc, "vulnerability-uri")?;
    let value = Text::from_str(alloc, value)?;
    Ok(Predicate::Attr { local, value })
}

fn child_asked(alloc: Global) -> Result<Predicate, NoMemory> {
    let name = Name::with_local(alloc, "vulnerability-uri")?;
    let value = Text::from_str(alloc, "some words that nobody wrote")?;
    Ok(Predicate::Child { name, value })
}

fn ten(alloc: Global) -> Result<Filter, NoMemory> {
    let mut parts = Vec::new(alloc);
    for _ in 0..3 {
        parts.push(attribute_asked(alloc, "other")?)?;
        parts.push(child_asked(alloc)?)?;
        parts.push(attribute_asked(alloc, "wards")?)?;
    }
    parts.push(attribute_asked(alloc, "words")?)?;
    let predicate = Some(Predicate::Or(Many(parts)));
    let name = Some(Name::new(alloc, META, "event")?);
    let mut tests = Vec::new(alloc);
    tests.push(Test { name, predicate })?;
    let tests = Many(tests);
    Ok(Filter { tests })
}

fn names(alloc: Global, size: usize) -> Result<Text, NoMemory> {
    let mut text = Text::from_str(alloc, "m:event")?;
    for _ in 1..size {
        text.push_str(" or m:event")?;
    }
    Ok(text)
}

fn scope(alloc: Global) -> Result<Scope, NoMemory> {
    let mut rows = Vec::new(alloc);
    rows.push((Text::from_str(alloc, "m")?, Text::from_str(alloc, META)?))?;
    Ok(Scope { rows: Many(rows) })
}

fn met(filter: &Filter, element: &Element) -> usize {
    let mut met = 0usize;
    for _ in 0..CALLS {
        if filter.matches(element) {
            met = met.wrapping_add(1);
        }
    }
    met
}

// The nanoseconds of a parse, and of the same with letting the filter go.
fn parse_times<R: Runtime>(rt: &R, alloc: Global, text: &Text, scope: &Scope) -> io::Result<(u128, u128)> {
    let start = Instant::now(rt)?;
    let filter = Filter::parse(alloc, text, scope);
    let parsed = start.elapsed(rt)?.as_nanos();
    if filter.is_err() {
        return Ok((u128::MAX, u128::MAX));
    }
    drop(filter);
    Ok((parsed, start.elapsed(rt)?.as_nanos()))
}

fn copy_time<R: Runtime>(rt: &R, alloc: Global, text: &Text) -> io::Result<u128> {
    let start = Instant::now(rt)?;
    let copy = Text::from_str(alloc, text.as_str()).map_err(io::Error::from)?;
    let copied = start.elapsed(rt)?.as_nanos();
    if copy.len() != text.len() {
        return Ok(u128::MAX);
    }
    Ok(copied)
}

fn print_reading<R: Runtime>(rt: &R, alloc: Global, size: usize, count: usize) -> io::Result<()> {
    let text = names(alloc, size).map_err(io::Error::from)?;
    let scope = scope(alloc).map_err(io::Error::from)?;
    let mut parsed = u128::MAX;
    let mut both = u128::MAX;
    let mut copied = u128::MAX;
    for _ in 0..count {
        let times = parse_times(rt, alloc, &text, &scope)?;
        parsed = parsed.min(times.0);
        both = both.min(times.1);
        copied = copied.min(copy_time(rt, alloc, &text)?);
    }
    let bytes = text.len();
    rt.println(format_args!("parse of {size} names, {bytes} bytes: {parsed} ns, {both} ns with letting go"))?;
    rt.println(format_args!("copy of the text: {copied} ns"))
}

fn print_matching<R: Runtime>(rt: &R, alloc: Global, count: usize) -> io::Result<()> {
    let element = metadata(alloc).map_err(io::Error::from)?;
    let filter = ten(alloc).map_err(io::Error::from)?;
    let mut least = u128::MAX;
    let mut times = 0usize;
    for _ in 0..count {
        let start = Instant::now(rt)?;
        times = met(&filter, &element);
        least = least.min(start.elapsed(rt)?.as_nanos());
    }
    let each = least / 10_000;
    rt.println(format_args!("matches: {times} of {CALLS} met, {each} ns each"))
}

fn main(rt: HostRuntime) -> io::Result<()> {
    let alloc = rt.alloc();
    let mut count = 100usize;
    for word in env::args(&rt)?.skip(1) {
        count = word.parse::<usize>().unwrap_or(1).min(1_000);
    }
    for size in SIZES {
        print_reading(&rt, alloc, size, count)?;
    }
    print_matching(&rt, alloc, count)
}
RATTLE
cd "$work/crates/filter_bench"
rt run -- "$count"
