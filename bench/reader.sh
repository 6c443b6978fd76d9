#!/bin/sh
# Times `read` beside `xmllint --noout` and Python's expat on the same documents, in turn, and takes
# the least of some times of each. Of xmllint's time that on a tiny document is taken off; `-` stands
# for an error or for more than forty seconds.
# Run from anywhere: sh bench/reader.sh [ROUNDS]. It needs `rt`, `xmllint` and `python3`, and builds
# in a new folder under TMPDIR.
. "$(dirname "$0")/common.sh"
rounds=${1:-5}
prepare reader_bench 'ifmap_elem ifmap_reader'
mkdir "$work/documents"
cat > "$work/crates/reader_bench/src/main.rt" <<'RATTLE'
//! Reads a document, and prints the least of three times in microseconds: of reading it, and of
//! reading it and letting it go.
#![tactic(auto)]

use ifmap_reader::read;
use std::alloc::Global;
use std::rt::Runtime;
use std::time::Instant;
use std::{env, fs, io};

const DEPTH: u32 = 100_000;

fn bench<R: Runtime>(rt: &R, alloc: Global, path: &str) -> io::Result<()> {
    let bytes = fs::read(rt, path)?;
    let mut reads = u128::MAX;
    let mut both = u128::MAX;
    for _ in 0..3 {
        let start = Instant::now(rt)?;
        let reading = read(alloc, bytes.as_slice(), DEPTH);
        reads = reads.min(start.elapsed(rt)?.as_nanos());
        if reading.is_err() {
            return rt.println(format_args!("none none"));
        }
        drop(reading);
        both = both.min(start.elapsed(rt)?.as_nanos());
    }
    rt.println(format_args!("{} {}", reads / 1000, both / 1000))
}

fn main(rt: HostRuntime) -> io::Result<()> {
    let alloc = rt.alloc();
    for path in env::args(&rt)?.skip(1) {
        bench(&rt, alloc, path.as_str())?;
    }
    Ok(())
}
RATTLE
cat > "$work/measure.py" <<'PYTHON'
"""Writes the documents, and times the three readers on each of them in turn."""
import subprocess
import sys
import time
import xml.parsers.expat

work, rounds = sys.argv[1], int(sys.argv[2])
UPDATE = b'''<update><access-request name="111:%d"/><mac-address value="00:00:5E:00:53:01"/>
 <metadata><meta:event ifmap-cardinality="multiValue"><name>words of a sensor, of some sixty bytes or about that many more</name><discovered-time>2026-11-27T01:23:45Z</discovered-time><discoverer-id>sensor-17</discoverer-id><magnitude>17</magnitude><confidence>90</confidence><significance>important</significance></meta:event></metadata></update>
'''
HEAD = b'''<?xml version="1.0" encoding="UTF-8"?>
<env:Envelope xmlns:env="http://www.w3.org/2003/05/soap-envelope" xmlns:ifmap="http://www.trustedcomputinggroup.org/2010/IFMAP/2" xmlns:meta="http://www.trustedcomputinggroup.org/2010/IFMAP-METADATA/2">
<env:Body><ifmap:publish session-id="1-00000000-0000-0000-0000-000000000001">
'''
FOOT = b'</ifmap:publish></env:Body></env:Envelope>'
VALUE = b'some words of a sensor, of eighty bytes or about that, with no reference among it'


def publish(updates):
    return HEAD + b''.join(UPDATE % i for i in range(updates)) + FOOT


def attributes(count):
    return b'<a ' + b' '.join(b'attribute-%d="%s"' % (i, VALUE) for i in range(count)) + b'/>'


def nested(depth, chains):
    return b'<a>' + (b'<b>' * depth + b'</b>' * depth) * chains + b'</a>'


def within(words, count):
    return b'<a>' + words * count + b'</a>'


def declared(depth):
    return b'<a>' * (depth - 1) + b'<b xmlns:p="u"/>' * 55000 + b'</a>' * (depth - 1)


DOCUMENTS = {
    'publish of 1 MB': publish(2200),
    'publish of 10 MB': publish(22000),
    'one tag of 1,000 attributes': attributes(1000),
    'one tag of 10,000 attributes': attributes(10000),
    'one tag of 100,000 attributes': attributes(100000),
    'elements nested 60 deep': nested(60, 24000),
    'elements nested 2,000 deep': nested(2000, 720),
    'references': within(b'&amp;&#65;&#x42;&lt;', 500000),
    'comments': within(b'<!-- a comment - of some words -->', 300000),
    'one text': within(b'some words that a sensor wrote, of sixty bytes or about that\n', 165000),
    'empty tags': within(b'<a/>', 2500000),
    '55,000 declarations, 2 deep': declared(2),
    '55,000 declarations, 62 deep': declared(62),
    'one name': b'<' + b'a' * 10000000 + b'/>',
}


def ours(path):
    program = work + '/crates/reader_bench/out/reader_bench'
    try:
        out = subprocess.run([program, path], capture_output=True, timeout=40).stdout.split()
        return [int(word) / 1000 for word in out] if out and out[0] != b'none' else [None, None]
    except subprocess.TimeoutExpired:
        return [None, None]


def xmllint(path):
    start = time.perf_counter()
    try:
        done = subprocess.run(['xmllint', '--noout', '--huge', path], capture_output=True, timeout=40)
    except subprocess.TimeoutExpired:
        return None
    return None if done.returncode else (time.perf_counter() - start) * 1000


def expat(document):
    parser = xml.parsers.expat.ParserCreate(namespace_separator=' ')
    start = time.perf_counter()
    parser.Parse(document, True)
    return (time.perf_counter() - start) * 1000


def is_short(time):
    """Whether it is worth while to measure again."""
    return time is not None and time < 10000


def least(times):
    known = [t for t in times if t is not None]
    return min(known) if known else None


def shown(time):
    return '-' if time is None else '%.1f' % time


tiny = work + '/documents/tiny.xml'
open(tiny, 'wb').write(b'<a/>')
started = min(xmllint(tiny) for _ in range(20))
print('ms: document | bytes | read | read and let go | xmllint | expat')
for number, (name, document) in enumerate(DOCUMENTS.items()):
    path = '%s/documents/%d.xml' % (work, number)
    open(path, 'wb').write(document)
    reads, both, lints, expats = [], [], [], []
    for turn in range(rounds):
        if turn == 0 or is_short(reads[0]):
            read, gone = ours(path)
            reads.append(read)
            both.append(gone)
        if turn == 0 or is_short(lints[0]):
            lints.append(xmllint(path))
        expats.append(expat(document))
    lint = least(lints)
    lint = None if lint is None else lint - started
    print(' | '.join([name, str(len(document)), shown(least(reads)), shown(least(both)), shown(lint), shown(least(expats))]), flush=True)
PYTHON
cd "$work/crates/reader_bench"
printf '<a/>' > "$work/documents/tiny.xml"
rt run -- "$work/documents/tiny.xml" > "$work/build.log" 2>&1 || { cat "$work/build.log"; exit 1; }
python3 "$work/measure.py" "$work" "$rounds"
