#!/bin/sh
# Times metadata, `role` with one child: reading the element beside reading it and making metadata of
# it, stamping, comparing two keys; and tells the memory of an attachment. The least of some turns.
# Run from anywhere: sh bench/meta.sh. It needs `rt`, and builds in a new folder under TMPDIR, where it
# proves the crates below the program from nothing: that takes most of its time.
. "$(dirname "$0")/common.sh"
prepare meta_bench 'ifmap_elem ifmap_ident ifmap_io ifmap_meta ifmap_reader ifmap_view'
cat > "$work/crates/meta_bench/src/main.rt" <<'RATTLE'
//! Makes metadata of elements that were read, stamps them, compares their keys, and keeps attachments.
#![tactic(auto)]

use ifmap_elem::Text;
use ifmap_ident::{Identifier, Item};
use ifmap_io::Moment;
use ifmap_meta::{ClientName, Life, Metadata, Stored};
use ifmap_reader::read;
use ifmap_view::Attachment;
use std::alloc::{AllocError as NoMemory, Global};
use std::fs;
use std::hint::black_box;
use std::io;
use std::rt::Runtime;
use std::time::Instant;

const CALLS: u64 = 2_000;
const TURNS: u64 = 20;
const ATTACHMENTS: usize = 40_000;
const PAGE: u64 = 4_096;

const ROLE: &str = "<m:role xmlns:m=\"http://www.trustedcomputinggroup.org/2010/IFMAP-METADATA/2\" ifmap-cardinality=\"multiValue\"><name>employee</name></m:role>";

fn role(alloc: Global) -> Option<Metadata> {
    let reading = read(alloc, ROLE.as_bytes(), 64).ok()?;
    Metadata::from_element(alloc, reading.root).ok()
}

fn time_of_reading<R: Runtime>(rt: &R, alloc: Global) -> io::Result<u128> {
    let mut least = u128::MAX;
    for _ in 0..TURNS {
        let start = Instant::now(rt)?;
        for _ in 0..CALLS {
            drop(black_box(read(alloc, black_box(ROLE.as_bytes()), 64)));
        }
        least = least.min(start.elapsed(rt)?.as_nanos());
    }
    Ok(least)
}

fn time_of_making<R: Runtime>(rt: &R, alloc: Global) -> io::Result<u128> {
    let mut least = u128::MAX;
    for _ in 0..TURNS {
        let start = Instant::now(rt)?;
        for _ in 0..CALLS {
            drop(black_box(role(black_box(alloc))));
        }
        least = least.min(start.elapsed(rt)?.as_nanos());
    }
    Ok(least)
}

fn stamp(alloc: Global, metadata: &Metadata, publisher: &ClientName) -> Result<Stored, NoMemory> {
    let moment = Moment::new(1_000_000_000).ok_or(NoMemory)?;
    metadata.stamp(alloc, publisher, moment, Life::Session(1))
}

fn time_of_stamping<R: Runtime>(
    rt: &R,
    alloc: Global,
    metadata: &Metadata,
    publisher: &ClientName,
) -> io::Result<u128> {
    let mut least = u128::MAX;
    for _ in 0..TURNS {
        let start = Instant::now(rt)?;
        for _ in 0..CALLS {
            drop(black_box(stamp(alloc, black_box(metadata), publisher)));
        }
        least = least.min(start.elapsed(rt)?.as_nanos());
    }
    Ok(least)
}

fn time_of_comparing<R: Runtime>(rt: &R, one: &Stored, other: &Stored) -> io::Result<u128> {
    let mut least = u128::MAX;
    for _ in 0..TURNS {
        let start = Instant::now(rt)?;
        for _ in 0..CALLS {
            black_box(black_box(one).same_key(black_box(other)));
        }
        least = least.min(start.elapsed(rt)?.as_nanos());
    }
    Ok(least)
}

fn bench_elements<R: Runtime>(rt: &R, alloc: Global) -> io::Result<()> {
    let reading = time_of_reading(rt, alloc)? / 2_000;
    let making = time_of_making(rt, alloc)? / 2_000;
    rt.println(format_args!("ns: read {reading}, read and made metadata {making}"))
}

fn bench_keys<R: Runtime>(rt: &R, one: &Stored, other: &Stored) -> io::Result<()> {
    let comparing = time_of_comparing(rt, one, other)?;
    let bytes = one.size();
    rt.println(format_args!("ns of 2,000: keys of {bytes} bytes compared {comparing}"))
}

fn bench_stored<R: Runtime>(
    rt: &R,
    alloc: Global,
    metadata: &Metadata,
    publisher: &ClientName,
) -> io::Result<()> {
    let stamping = time_of_stamping(rt, alloc, metadata, publisher)? / 2_000;
    rt.println(format_args!("ns: stamped {stamping}"))?;
    let one = stamp(alloc, metadata, publisher)?;
    let other = stamp(alloc, metadata, publisher)?;
    bench_keys(rt, &one, &other)
}

fn item(alloc: Global, number: u32) -> Item {
    let [a, b, c, d] = number.wrapping_mul(2_654_435_761).to_be_bytes();
    let domain = Text(String::new(alloc));
    let value = [0, 2, a, b, c, d];
    Item::One(Identifier::MacAddress { value, domain })
}

fn attachment(
    alloc: Global,
    number: u32,
    publisher: &ClientName,
) -> Result<Attachment, NoMemory> {
    let metadata = role(alloc).ok_or(NoMemory)?;
    let stored = stamp(alloc, &metadata, publisher)?;
    let item = item(alloc, number);
    Ok(Attachment { item, stored })
}

// The resident pages, from the second word of the file.
fn resident<R: Runtime>(rt: &R) -> io::Result<u64> {
    let text = fs::read_to_string(rt, "/proc/self/statm")?;
    let mut words = text.as_str().split(' ');
    let _size = words.next();
    Ok(words.next().and_then(|word| word.parse::<u64>().ok()).unwrap_or(0))
}

fn add_attachments(
    alloc: Global,
    publisher: &ClientName,
    all: &mut Vec<Attachment>,
) -> Result<(), NoMemory> {
    for number in 0..40_000 {
        all.push(attachment(alloc, number, publisher)?)?;
    }
    Ok(())
}

fn bench_memory<R: Runtime>(
    rt: &R,
    alloc: Global,
    publisher: &ClientName,
    all: &mut Vec<Attachment>,
) -> io::Result<()> {
    let before = resident(rt)?;
    add_attachments(alloc, publisher, all)?;
    let pages = resident(rt)?.saturating_sub(before);
    let each = pages.saturating_mul(PAGE) / 40_000;
    rt.println(format_args!("bytes of memory for an attachment: {each}"))
}

fn bench_all<R: Runtime>(rt: &R, alloc: Global, publisher: &ClientName) -> io::Result<()> {
    bench_elements(rt, alloc)?;
    if let Some(metadata) = role(alloc) {
        bench_stored(rt, alloc, &metadata, publisher)?;
    }
    let mut all = Vec::with_capacity(alloc, ATTACHMENTS)?;
    bench_memory(rt, alloc, publisher, &mut all)
}

fn main(rt: HostRuntime) -> io::Result<()> {
    let alloc = rt.alloc();
    match ClientName::new(Text(String::from_str(alloc, "c1")?)) {
        Some(publisher) => bench_all(&rt, alloc, &publisher),
        None => Ok(()),
    }
}
RATTLE
cd "$work/crates/meta_bench"
rt run > "$work/out.txt" 2> "$work/build.log" || { cat "$work/build.log"; exit 1; }
cat "$work/out.txt"
