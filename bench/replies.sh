#!/bin/sh
# Times `write_reply` of results of a thousand entries against `canonical` of their elements, in turn,
# and takes the least of some times of each: once with each entry on a link of its own, and once with
# ten on each link. The bytes of both are compared.
# Run from anywhere: sh bench/replies.sh [ROUNDS]. It needs `rt`, and builds in a new folder under
# TMPDIR.
. "$(dirname "$0")/common.sh"
rounds=${1:-3}
prepare replies_bench 'ifmap_elem ifmap_ident ifmap_meta ifmap_replies ifmap_search'
cat > "$work/crates/replies_bench/src/main.rt" <<'RATTLE'
//! Writes results of a thousand entries, and prints their elements.
#![tactic(auto)]

use ifmap_elem::{Attribute, Child, Element, Many, Name, Text, canonical};
use ifmap_ident::{Identifier, Item, SharedItem};
use ifmap_meta::SharedElement;
use ifmap_replies::{Reply, element_of, write_reply};
use ifmap_search::Entry;
use std::alloc::{AllocError as NoMemory, Global};
use std::io;
use std::rt::Runtime;
use std::time::Instant;

const META: &str = "http://www.trustedcomputinggroup.org/2010/IFMAP-METADATA/2";

const PARTS: [&str; 10] = ["name", "discovered-time", "discoverer-id", "magnitude", "confidence", "significance", "type", "other-type-definition", "information", "vulnerability-uri"];

fn attribute(alloc: Global, local: &str, value: &str) -> Result<Attribute, NoMemory> {
    let value = Text::from_str(alloc, value)?;
    Attribute::with_local(alloc, local, value)
}

fn leaf(alloc: Global, local: &str) -> Result<Child, NoMemory> {
    let words = Text::from_str(alloc, "some words that a sensor wrote, of sixty bytes or about that")?;
    let children = vec![in alloc; Child::Text(words)]?;
    Ok(Child::Element(Element::with_local(alloc, local, Vec::new(alloc), children)?))
}

fn event(alloc: Global) -> Result<Element, NoMemory> {
    let name = Name::new(alloc, META, "event")?;
    let mut attributes = Vec::with_capacity(alloc, 3)?;
    attributes.push(attribute(alloc, "ifmap-cardinality", "multiValue")?)?;
    attributes.push(attribute(alloc, "ifmap-publisher-id", "pdp-17")?)?;
    attributes.push(attribute(alloc, "ifmap-timestamp", "2026-11-27T01:23:45Z")?)?;
    let mut members = Vec::with_capacity(alloc, 10)?;
    for local in PARTS {
        members.push(leaf(alloc, local)?)?;
    }
    let attributes = Many(attributes);
    let children = Many(members);
    Ok(Element { name, attributes, children })
}

fn link(alloc: Global, number: u32) -> Result<Item, NoMemory> {
    let low = (number % 256) as u8;
    let high = (number / 256 % 256) as u8;
    let name = Text(format!(in alloc; "ar-{number}")?);
    let domain = Text::new(alloc);
    let request = Identifier::AccessRequest { name, domain };
    let domain = Text::new(alloc);
    let address = Identifier::MacAddress { value: [2, 0, 0, 0, high, low], domain };
    Ok(Item::Pair(request, address))
}

// How many entries stand on each link.
enum OnEach {
    One,
    Ten,
}

fn place(number: u32, on_each: &OnEach) -> u32 {
    match on_each {
        OnEach::One => number,
        OnEach::Ten => number / 10,
    }
}

fn result(alloc: Global, on_each: &OnEach) -> Result<Reply, NoMemory> {
    let mut entries = Vec::with_capacity(alloc, 1000)?;
    for number in 0..1000 {
        let item = SharedItem::new(alloc, link(alloc, place(number, on_each))?)?;
        let element = SharedElement::new(alloc, event(alloc)?)?;
        entries.push(Entry { item, element })?;
    }
    Ok(Reply::Found(Many(entries)))
}

fn bench<R: Runtime>(rt: &R, alloc: Global, label: &str, reply: &Reply) -> io::Result<()> {
    let element = element_of(alloc, reply).map_err(io::Error::from)?;
    let mut writes = u128::MAX;
    let mut prints = u128::MAX;
    let mut length = 0;
    let mut alike = true;
    for _ in 0..40 {
        let start = Instant::now(rt)?;
        let written = write_reply(alloc, reply).map_err(io::Error::from)?;
        writes = writes.min(start.elapsed(rt)?.as_nanos());
        let start = Instant::now(rt)?;
        let printed = canonical(alloc, &element).map_err(io::Error::from)?;
        prints = prints.min(start.elapsed(rt)?.as_nanos());
        length = written.0.len();
        alike = alike && written.0.as_slice() == printed.0.as_slice();
    }
    rt.println(format_args!("{label}: {length} bytes, alike: {alike}, written in {} us, its element printed in {} us", writes / 1000, prints / 1000))
}

fn main(rt: HostRuntime) -> io::Result<()> {
    let alloc = rt.alloc();
    // Once this much was given back at once, the C library keeps what is given back.
    let room: Vec<u8> = Vec::with_capacity(alloc, 1 << 24).map_err(io::Error::from)?;
    drop(room);
    let apart = result(alloc, &OnEach::One).map_err(io::Error::from)?;
    bench(&rt, alloc, "each on a link of its own", &apart)?;
    let together = result(alloc, &OnEach::Ten).map_err(io::Error::from)?;
    bench(&rt, alloc, "ten on each link", &together)
}
RATTLE
cd "$work/crates/replies_bench"
rt run > "$work/build.log" 2>&1 || { cat "$work/build.log"; exit 1; }
for round in $(seq "$rounds"); do
    "$work/crates/replies_bench/out/replies_bench"
done
