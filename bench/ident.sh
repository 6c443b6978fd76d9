#!/bin/sh
# Times identifiers: `from_element` of each kind beside `read` of its element, and comparing two
# identifiers that differ in their last byte beside comparing their texts. The least of some turns.
# Run from anywhere: sh bench/ident.sh. It needs `rt`, and builds in a new folder under TMPDIR.
. "$(dirname "$0")/common.sh"
prepare ident_bench 'ifmap_elem ifmap_ident ifmap_reader'
cat > "$work/crates/ident_bench/src/main.rt" <<'RATTLE'
//! Reads elements, makes identifiers of them, and compares identifiers and texts.
#![tactic(auto)]

use ifmap_elem::{Element, Text};
use ifmap_ident::Identifier;
use ifmap_reader::read;
use std::alloc::Global;
use std::cmp::Ordering;
use std::hint::black_box;
use std::io;
use std::rt::Runtime;
use std::time::Instant;

const CALLS: u64 = 2_000;
const TURNS: u64 = 20;

const ELEMENTS: [&str; 7] = [
    "<access-request name=\"111:33\" administrative-domain=\"example.org\"/>",
    "<device><name>switch-17.example.org</name></device>",
    "<identity name=\"someone\" type=\"username\" administrative-domain=\"example.org\"/>",
    "<identity name=\"WWW.Example.ORG.\" type=\"dns-name\"/>",
    "<ip-address value=\"192.0.2.77\" type=\"IPv4\"/>",
    "<ip-address value=\"2001:DB8::5efe:c000:24d\" type=\"IPv6\"/>",
    "<mac-address value=\"00:00:5E:00:53:01\"/>",
];

const EXTENDED: &str = "<identity name=\"&lt;p:a xmlns:p=&quot;u&quot; x=&quot;2&quot; y=&quot;1&quot;>&lt;/p:a>\" other-type-definition=\"extended\" type=\"other\"/>";

fn time_of_reading<R: Runtime>(rt: &R, alloc: Global, document: &[u8]) -> io::Result<u128> {
    let mut least = u128::MAX;
    for _ in 0..TURNS {
        let start = Instant::now(rt)?;
        for _ in 0..CALLS {
            drop(black_box(read(alloc, black_box(document), 64)));
        }
        least = least.min(start.elapsed(rt)?.as_nanos());
    }
    Ok(least)
}

fn time_of_making<R: Runtime>(rt: &R, alloc: Global, element: &Element) -> io::Result<u128> {
    let mut least = u128::MAX;
    for _ in 0..TURNS {
        let start = Instant::now(rt)?;
        for _ in 0..CALLS {
            drop(black_box(Identifier::from_element(alloc, black_box(element))));
        }
        least = least.min(start.elapsed(rt)?.as_nanos());
    }
    Ok(least)
}

// The time of `from_element` on the element that the document spells.
fn time_of_making_it<R: Runtime>(rt: &R, alloc: Global, document: &str) -> io::Result<u128> {
    match read(alloc, document.as_bytes(), 64) {
        Ok(whole) => time_of_making(rt, alloc, &whole.root),
        Err(_) => Ok(0),
    }
}

fn bench_element<R: Runtime>(rt: &R, alloc: Global, document: &str) -> io::Result<()> {
    let reading = time_of_reading(rt, alloc, document.as_bytes())? / 2_000;
    let making = time_of_making_it(rt, alloc, document)? / 2_000;
    rt.println(format_args!("{document} | {reading} | {making}"))
}

// Each comparison waits for the one before it, so none is taken out of the loop.
fn time_of_comparing<R: Runtime, T: Ord>(rt: &R, one: &T, other: &T) -> io::Result<u128> {
    let mut least = u128::MAX;
    for _ in 0..TURNS {
        let start = Instant::now(rt)?;
        let mut order = Ordering::Less;
        for _ in 0..CALLS {
            order = match order {
                Ordering::Less => other.cmp(one),
                _ => one.cmp(other),
            };
        }
        let took = start.elapsed(rt)?.as_nanos();
        if order != Ordering::Equal {
            least = least.min(took);
        }
    }
    Ok(least)
}

fn time_of_equals<R: Runtime>(rt: &R, one: &Identifier, other: &Identifier) -> io::Result<u128> {
    let mut least = u128::MAX;
    for _ in 0..TURNS {
        let start = Instant::now(rt)?;
        for _ in 0..CALLS {
            black_box(black_box(one) == black_box(other));
        }
        least = least.min(start.elapsed(rt)?.as_nanos());
    }
    Ok(least)
}

fn long_name(alloc: Global, len: usize, last: char) -> io::Result<Text> {
    let mut name = String::new(alloc);
    for _ in 1..len {
        name.push('x')?;
    }
    name.push(last)?;
    Ok(Text(name))
}

fn device(alloc: Global, len: usize, last: char) -> io::Result<Identifier> {
    Ok(Identifier::Device {
        name: long_name(alloc, len, last)?,
    })
}

fn access_request(alloc: Global, len: usize, last: char) -> io::Result<Identifier> {
    Ok(Identifier::AccessRequest {
        name: long_name(alloc, len, last)?,
        domain: Text(String::new(alloc)),
    })
}

fn mac(alloc: Global, last: u8) -> Identifier {
    Identifier::MacAddress {
        value: [0, 0, 0x5e, 0, 0x53, last],
        domain: Text(String::new(alloc)),
    }
}

// Two of one kind that differ in the last byte of what they are called.
#[derive(Drop)]
struct Two<T> {
    one: T,
    other: T,
}

fn two_names(alloc: Global, len: usize) -> io::Result<Two<Text>> {
    let one = long_name(alloc, len, 'a')?;
    let other = long_name(alloc, len, 'b')?;
    Ok(Two { one, other })
}

fn two_devices(alloc: Global, len: usize) -> io::Result<Two<Identifier>> {
    let one = device(alloc, len, 'a')?;
    let other = device(alloc, len, 'b')?;
    Ok(Two { one, other })
}

fn two_requests(alloc: Global, len: usize) -> io::Result<Two<Identifier>> {
    let one = access_request(alloc, len, 'a')?;
    let other = access_request(alloc, len, 'b')?;
    Ok(Two { one, other })
}

fn two_macs(alloc: Global) -> Two<Identifier> {
    let one = mac(alloc, 1);
    let other = mac(alloc, 2);
    Two { one, other }
}

fn time_of_names<R: Runtime>(rt: &R, alloc: Global, len: usize) -> io::Result<u128> {
    let two = two_names(alloc, len)?;
    time_of_comparing(rt, &two.one, &two.other)
}

fn time_of_devices<R: Runtime>(rt: &R, alloc: Global, len: usize) -> io::Result<u128> {
    let two = two_devices(alloc, len)?;
    time_of_comparing(rt, &two.one, &two.other)
}

fn time_of_requests<R: Runtime>(rt: &R, alloc: Global, len: usize) -> io::Result<u128> {
    let two = two_requests(alloc, len)?;
    time_of_comparing(rt, &two.one, &two.other)
}

fn time_of_equal_requests<R: Runtime>(rt: &R, alloc: Global, len: usize) -> io::Result<u128> {
    let two = two_requests(alloc, len)?;
    time_of_equals(rt, &two.one, &two.other)
}

fn time_of_macs<R: Runtime>(rt: &R, alloc: Global) -> io::Result<u128> {
    let two = two_macs(alloc);
    time_of_comparing(rt, &two.one, &two.other)
}

fn bench_comparing<R: Runtime>(rt: &R, alloc: Global, len: usize) -> io::Result<()> {
    let names = time_of_names(rt, alloc, len)?;
    let devices = time_of_devices(rt, alloc, len)?;
    let requests = time_of_requests(rt, alloc, len)?;
    let same = time_of_equal_requests(rt, alloc, len)?;
    rt.println(format_args!("{len} | {names} | {devices} | {requests} | {same}"))
}

fn bench_elements<R: Runtime>(rt: &R, alloc: Global) -> io::Result<()> {
    rt.println(format_args!("ns: element | read | from_element"))?;
    for document in &ELEMENTS {
        bench_element(rt, alloc, document)?;
    }
    bench_element(rt, alloc, EXTENDED)
}

fn bench_names<R: Runtime>(rt: &R, alloc: Global) -> io::Result<()> {
    rt.println(format_args!(
        "ns of 2,000: bytes of the name | texts | devices | access requests | whether equal"
    ))?;
    bench_comparing(rt, alloc, 17)?;
    bench_comparing(rt, alloc, 200)?;
    bench_comparing(rt, alloc, 4000)
}

fn main(rt: HostRuntime) -> io::Result<()> {
    let alloc = rt.alloc();
    bench_elements(&rt, alloc)?;
    bench_names(&rt, alloc)?;
    let macs = time_of_macs(&rt, alloc)?;
    rt.println(format_args!("ns of 2,000: MAC addresses {macs}"))
}
RATTLE
cd "$work/crates/ident_bench"
rt run > "$work/out.txt" 2> "$work/build.log" || { cat "$work/build.log"; exit 1; }
cat "$work/out.txt"
