#!/bin/sh
# Times the printer of ifmap_elem against copies of what it prints, and takes the least of some times
# of each; then against libxml2's dump to memory of what it printed. The lists of the elements take no
# more room than what they hold, as those of copies do.
# Run from anywhere: sh bench/printer.sh [ROUNDS]. It needs `rt`, `gcc` and libxml2's headers, and
# builds in a new folder under TMPDIR. Each round runs the printer and then libxml2.
. "$(dirname "$0")/common.sh"
rounds=${1:-3}
prepare printer_bench 'ifmap_elem'
cat > "$work/crates/printer_bench/src/main.rt" <<'RATTLE'
//! Prints elements of about one megabyte, and copies the bytes.
#![tactic(auto)]

use ifmap_elem::{Attribute, Child, Copied, Element, Many, Name, Text, canonical, same};
use std::alloc::{AllocError as NoMemory, Global};
use std::io;
use std::rt::Runtime;
use std::time::Instant;
use std::fs;

const META: &str = "http://www.trustedcomputinggroup.org/2010/IFMAP-METADATA/2";

fn attribute(alloc: Global, local: &str, value: &str) -> Result<Attribute, NoMemory> {
    let value = Text::from_str(alloc, value)?;
    Attribute::with_local(alloc, local, value)
}

fn leaf(alloc: Global, space: &str, local: &str, words: &str) -> Result<Element, NoMemory> {
    let name = Name::new(alloc, space, local)?;
    let attributes = Many(Vec::new(alloc));
    let mut members = Vec::with_capacity(alloc, 1)?;
    members.push(Child::Text(Text::from_str(alloc, words)?))?;
    let children = Many(members);
    Ok(Element { name, attributes, children })
}

fn metadata(alloc: Global) -> Result<Element, NoMemory> {
    let name = Name::new(alloc, META, "event")?;
    let mut attributes = Vec::with_capacity(alloc, 3)?;
    attributes.push(attribute(alloc, "ifmap-cardinality", "multiValue")?)?;
    attributes.push(attribute(alloc, "ifmap-publisher-id", "pdp-17")?)?;
    attributes.push(attribute(alloc, "ifmap-timestamp", "2026-11-27T01:23:45Z")?)?;
    let mut members = Vec::with_capacity(alloc, 10)?;
    for local in ["name", "discovered-time", "discoverer-id", "magnitude", "confidence", "significance", "type", "other-type-definition", "information", "vulnerability-uri"] {
        members.push(Child::Element(leaf(alloc, "", local, "some words that a sensor wrote, of sixty bytes or about that")?))?;
    }
    let attributes = Many(attributes);
    let children = Many(members);
    Ok(Element { name, attributes, children })
}

fn thousand(alloc: Global) -> Result<Element, NoMemory> {
    let name = Name::new(alloc, "http://www.trustedcomputinggroup.org/2010/IFMAP/2", "response")?;
    let attributes = Many(Vec::new(alloc));
    let mut members = Vec::with_capacity(alloc, 1000)?;
    for _ in 0..1000 {
        members.push(Child::Element(metadata(alloc)?))?;
    }
    let children = Many(members);
    Ok(Element { name, attributes, children })
}

fn long_text(alloc: Global) -> Result<Element, NoMemory> {
    let mut words = String::new(alloc);
    for _ in 0..16000 {
        words.push_str("sixty-three bytes of plain text, as the log of a scanner has it")?;
    }
    leaf(alloc, "", "a", words.as_str())
}

fn spaces(alloc: Global) -> Result<Element, NoMemory> {
    let name = Name::new(alloc, "", "a")?;
    let attributes = Many(Vec::new(alloc));
    let mut members = Vec::new(alloc);
    for i in 0..12000 {
        let space = format!(in alloc; "http://example.com/namespaces/number-{i}")?;
        members.push(Child::Element(leaf(alloc, space.as_str(), "b", "c")?))?;
    }
    let children = Many(members);
    Ok(Element { name, attributes, children })
}

fn prefixed(alloc: Global) -> Result<Element, NoMemory> {
    let name = Name::new(alloc, META, "a")?;
    let attributes = Many(Vec::new(alloc));
    let mut members = Vec::new(alloc);
    for i in 0..20000 {
        let space = format!(in alloc; "http://example.com/namespaces/number-{}", i % 3)?;
        members.push(Child::Element(leaf(alloc, space.as_str(), "identifier", "words of a sensor")?))?;
    }
    let children = Many(members);
    Ok(Element { name, attributes, children })
}

fn bench<R: Runtime>(rt: &R, alloc: Global, label: &str, element: &Element) -> io::Result<()> {
    let mut prints = u128::MAX;
    let mut copies = u128::MAX;
    let mut length = 0;
    for _ in 0..40 {
        let start = Instant::now(rt)?;
        let printed = canonical(alloc, element).map_err(io::Error::from)?;
        prints = prints.min(start.elapsed(rt)?.as_nanos());
        length = printed.0.len();
        let start = Instant::now(rt)?;
        let one = Vec::from_slice(alloc, printed.0.as_slice()).map_err(io::Error::from)?;
        let two = Vec::from_slice(alloc, one.as_slice()).map_err(io::Error::from)?;
        copies = copies.min(start.elapsed(rt)?.as_nanos());
        drop(two);
    }
    let mut compares = u128::MAX;
    let other = element.copy(alloc).map_err(io::Error::from)?;
    for _ in 0..20 {
        let start = Instant::now(rt)?;
        let _ = same(element, &other);
        compares = compares.min(start.elapsed(rt)?.as_nanos());
    }
    let printed = canonical(alloc, element).map_err(io::Error::from)?;
    fs::write(rt, label, printed.0.as_slice())?;
    rt.println(format_args!("{label}: {length} bytes, printed in {} us, copied twice in {} us, compared in {} us", prints / 1000, copies / 1000, compares / 1000))
}

fn main(rt: HostRuntime) -> io::Result<()> {
    let alloc = rt.alloc();
    // Once this much was given back at once, the C library keeps what is given back, so that
    // neither prints nor copies wait for pages from the system.
    let room: Vec<u8> = Vec::with_capacity(alloc, 1 << 24).map_err(io::Error::from)?;
    drop(room);
    let element = thousand(alloc).map_err(io::Error::from)?;
    bench(&rt, alloc, "metadata", &element)?;
    let element = long_text(alloc).map_err(io::Error::from)?;
    bench(&rt, alloc, "text", &element)?;
    let element = prefixed(alloc).map_err(io::Error::from)?;
    bench(&rt, alloc, "prefixed", &element)?;
    let element = spaces(alloc).map_err(io::Error::from)?;
    bench(&rt, alloc, "namespaces", &element)
}
RATTLE
cat > "$work/dump.c" <<'C'
/* Times xmlDocDumpMemory on each document, and prints the least of forty times. */
#include <libxml/parser.h>
#include <libxml/tree.h>
#include <stdio.h>
#include <time.h>

static long nanoseconds(void) {
    struct timespec t;
    clock_gettime(CLOCK_MONOTONIC, &t);
    return t.tv_sec * 1000000000L + t.tv_nsec;
}

int main(int count, char **paths) {
    for (int i = 1; i < count; i++) {
        xmlDocPtr document = xmlReadFile(paths[i], NULL, XML_PARSE_HUGE);
        if (!document) return 1;
        long least = -1;
        int size = 0;
        for (int k = 0; k < 40; k++) {
            xmlChar *out;
            long start = nanoseconds();
            xmlDocDumpMemory(document, &out, &size);
            long took = nanoseconds() - start;
            if (least < 0 || took < least) least = took;
            xmlFree(out);
        }
        printf("%s: %d bytes, dumped by libxml2 in %ld us\n", paths[i], size, least / 1000);
        xmlFreeDoc(document);
    }
    return 0;
}
C
gcc -O2 $(xml2-config --cflags) -o "$work/dump" "$work/dump.c" $(xml2-config --libs)
mkdir "$work/documents"
cd "$work/crates/printer_bench"
rt run > "$work/build.log" 2>&1 || { cat "$work/build.log"; exit 1; }
cd "$work/documents"
for round in $(seq "$rounds"); do
    "$work/crates/printer_bench/out/printer_bench"
    "$work/dump" metadata text prefixed namespaces
done
