#!/bin/sh
# Times `read_request` of a publish of a thousand elements, beside `read` of the same bytes, and of
# publishes of a thousand and of ten thousand deletes, each with a filter and a declaration of its own
# beside as many at the root. The least of COUNT times.
# Run from anywhere: sh bench/requests.sh [COUNT]; COUNT is at most 1,000, and 20 if it is left out. It
# needs `rt`, and builds in a new folder under TMPDIR.
. "$(dirname "$0")/common.sh"
count=${1:-20}
prepare requests_bench 'ifmap_reader ifmap_requests'
cat > "$work/crates/requests_bench/src/main.rt" <<'RATTLE'
//! Reads bodies as elements and as requests, as many times as the first word says.
#![tactic(auto)]

use ifmap_reader::read;
use ifmap_requests::read_request;
use std::alloc::{AllocError as NoMemory, Global};
use std::rt::Runtime;
use std::time::Instant;
use std::{env, io};

const ENVELOPE: &str =
    "<e:Envelope xmlns:e='http://www.w3.org/2003/05/soap-envelope' xmlns:i='http://www.trustedcomputinggroup.org/2010/IFMAP/2' xmlns:m='http://www.trustedcomputinggroup.org/2010/IFMAP-METADATA/2'";

const PUBLISH: &str = "><e:Body><i:publish session-id='1-x'>";

const END: &str = "</i:publish></e:Body></e:Envelope>";

const UPDATE: &str = "<update><ip-address value='192.0.2.1' type='IPv4'/><metadata>";

const EVENT: &str =
    "<m:event ifmap-cardinality='multiValue'><name>scan</name><discovered-time>2026-01-01T00:00:00Z</discovered-time><discoverer-id>sensor</discoverer-id><magnitude>50</magnitude><confidence>75</confidence><significance>important</significance><type>behavioral change</type></m:event>";

fn elements(alloc: Global, count: u32) -> Result<String, NoMemory> {
    let mut body = String::from_str(alloc, ENVELOPE)?;
    body.push_str(PUBLISH)?;
    body.push_str(UPDATE)?;
    for _ in 0..count {
        body.push_str(EVENT)?;
    }
    body.push_str("</metadata></update>")?;
    body.push_str(END)?;
    Ok(body)
}

fn push_declaration(alloc: Global, body: &mut String, number: u32) -> Result<(), NoMemory> {
    let declaration = format!(in alloc; " xmlns:p{number}='u{number}'")?;
    body.push_str(declaration.as_str())
}

fn push_delete(alloc: Global, body: &mut String, number: u32) -> Result<(), NoMemory> {
    let delete = format!(in alloc; "<delete xmlns:d='d{number}' filter='d:a or p{number}:b'><ip-address value='192.0.2.1' type='IPv4'/></delete>")?;
    body.push_str(delete.as_str())
}

fn deletes(alloc: Global, count: u32) -> Result<String, NoMemory> {
    let mut body = String::from_str(alloc, ENVELOPE)?;
    for number in 0..count {
        push_declaration(alloc, &mut body, number)?;
    }
    body.push_str(PUBLISH)?;
    for number in 0..count {
        push_delete(alloc, &mut body, number)?;
    }
    body.push_str(END)?;
    Ok(body)
}

fn read_time<R: Runtime>(rt: &R, alloc: Global, body: &str) -> io::Result<u128> {
    let start = Instant::now(rt)?;
    let reading = read(alloc, body.as_bytes(), 64);
    let time = start.elapsed(rt)?.as_nanos();
    if reading.is_err() {
        return Ok(u128::MAX);
    }
    Ok(time)
}

fn request_time<R: Runtime>(rt: &R, alloc: Global, body: &str) -> io::Result<u128> {
    let start = Instant::now(rt)?;
    let request = read_request(alloc, body.as_bytes());
    let time = start.elapsed(rt)?.as_nanos();
    if request.is_err() {
        return Ok(u128::MAX);
    }
    Ok(time)
}

fn print_times<R: Runtime>(rt: &R, alloc: Global, name: &str, body: &str, count: usize) -> io::Result<()> {
    let mut element = u128::MAX;
    let mut request = u128::MAX;
    for _ in 0..count {
        element = element.min(read_time(rt, alloc, body)?);
        request = request.min(request_time(rt, alloc, body)?);
    }
    let bytes = body.len();
    rt.println(format_args!("{name}, {bytes} bytes: read {element} ns, read_request {request} ns"))
}

fn main(rt: HostRuntime) -> io::Result<()> {
    let alloc = rt.alloc();
    let mut count = 20usize;
    for word in env::args(&rt)?.skip(1) {
        count = word.parse::<usize>().unwrap_or(1).min(1_000);
    }
    let body = elements(alloc, 1_000).map_err(io::Error::from)?;
    print_times(&rt, alloc, "1,000 elements", body.as_str(), count)?;
    let body = deletes(alloc, 1_000).map_err(io::Error::from)?;
    print_times(&rt, alloc, "1,000 deletes", body.as_str(), count)?;
    let body = deletes(alloc, 10_000).map_err(io::Error::from)?;
    print_times(&rt, alloc, "10,000 deletes", body.as_str(), count)
}
RATTLE
cd "$work/crates/requests_bench"
rt run -- "$count"
