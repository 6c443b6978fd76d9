#!/bin/sh
# Times posts of 300 bytes, read and answered: over links in memory, with the same heads through
# `httparse` alone beside it, and over a pair of sockets, with the same bytes read and written there
# and no HTTP beside it; and heads that come a byte at a time. Run from anywhere: sh bench/http.sh. It
# needs `rt`, and builds in a new folder under TMPDIR.
. "$(dirname "$0")/common.sh"
prepare http_bench 'httparse ifmap_heads ifmap_http ifmap_io'
cat > "$work/crates/http_bench/src/main.rt" <<'RATTLE'
//! Reads posts and answers them, and parses the same heads.
#![tactic(auto)]

use httparse::{EMPTY_HEADER, Request};
use ifmap_http::{Got, Sent, Wire};
use ifmap_io::{Door, Failed, Link, MemoryLink, Sink, Source, TcpDoor, TcpLink};
use std::alloc::{AllocError as NoMemory, Global};
use std::io;
use std::net::{TcpListener, TcpStream};
use std::time::{Clock, Instant};

const HEAD: &[u8] = b"POST /ifmap HTTP/1.1\r\nhost: map.example.org:8444\r\nuser-agent: Apache-HttpClient/4.5\r\nifmap-client: pdp-17\r\ncontent-type: application/soap+xml\r\ncontent-length: 134\r\n\r\n";
const POSTS: u32 = 200_000;
const EXCHANGES: u32 = 20_000;
const DRIPS: u32 = 200;

fn post(alloc: Global) -> Result<Vec<u8>, NoMemory> {
    let mut post = HEAD.to_vec(alloc)?;
    post.resize(HEAD.len() + 134, b'x')?;
    Ok(post)
}

fn posts(alloc: Global, count: u32) -> Result<Vec<u8>, NoMemory> {
    let one = post(alloc)?;
    let mut all = Vec::new(alloc);
    for _ in 0..count {
        all.extend_from_slice(&one)?;
    }
    Ok(all)
}

// A link that reads a byte at a time.
#[derive(Drop)]
struct Drip {
    left: Vec<u8>,
    taken: usize,
}

impl Source for Drip {
    ghost use Rattle.std.specs.Prelude.{None};
    ghost use Rattle.ifmap_io.specs.Links.{no_side};

    ghost left = { λ _. None };

    ghost faults = { λ _. 0 };

    ghost outgoing = { λ _. no_side };

    fn read(&mut self, room: &mut [u8]) -> Result<usize, Failed> {
        let (Some(byte), Some(place)) = (self.left.get(self.taken), room.first_mut()) else {
            return Ok(0);
        };
        *place = *byte;
        self.taken = self.taken.saturating_add(1);
        Ok(1)
    }
}

impl Sink for Drip {
    ghost use Rattle.std.specs.Prelude.{None};
    ghost use Rattle.ifmap_io.specs.Links.{no_side};

    ghost held = { λ _. None };

    ghost faults = { λ _. 0 };

    ghost incoming = { λ _. no_side };

    fn write_all(&mut self, _bytes: &[u8]) -> Result<(), Failed> {
        Ok(())
    }

    fn flush(&mut self) -> Result<(), Failed> {
        Ok(())
    }
}

impl Link for Drip {
    ghost use Rattle.std.specs.Prelude.{refl};

    ghost outgoing_is = { λ link. refl };

    ghost incoming_is = { λ link. refl };
}

// How long a head of that many bytes takes, which comes a byte at a time.
fn time_drip(rt: &impl Clock, alloc: Global, size: usize) -> io::Result<u128> {
    let mut left = b"POST / HTTP/1.1\r\nifmap-client: c\r\ncontent-length: 0\r\na: ".to_vec(alloc)?;
    left.resize(size, b'x')?;
    left.extend_from_slice(b"\r\n\r\n")?;
    let began = Instant::now(rt)?;
    let mut served = 0u32;
    for _ in 0..DRIPS {
        let link = Drip { left: left.clone()?, taken: 0 };
        if matches!(Wire::new(alloc, link).read_post(alloc), Got::Posted(_)) {
            served = served.saturating_add(1);
        }
    }
    nanoseconds(rt, began, served)
}

// Reads a post and answers it.
fn serve<L: Link>(alloc: Global, wire: &mut Wire<L>) -> bool {
    !wire.is_spent()
        && matches!(wire.read_post(alloc), Got::Posted(_))
        && wire.write_answer(alloc, 200, b"<answer/>", false) == Sent::Done
}

fn nanoseconds(rt: &impl Clock, began: Instant, count: u32) -> io::Result<u128> {
    Ok(Instant::now(rt)?.duration_since(began).as_nanos() / u128::from(count.max(1)))
}

fn hundredths(of: u128, one: u128) -> u128 {
    of.saturating_mul(100) / one.max(1)
}

// Posts over links in memory, all of which are there at once.
fn time_memory(rt: &impl Clock, alloc: Global) -> io::Result<u128> {
    let all = posts(alloc, POSTS)?;
    let began = Instant::now(rt)?;
    let mut wire = Wire::new(alloc, MemoryLink::new(all, Vec::new(alloc), Vec::new(alloc)));
    let mut served = 0u32;
    for _ in 0..POSTS {
        if serve(alloc, &mut wire) {
            served = served.saturating_add(1);
        }
    }
    nanoseconds(rt, began, served)
}

// The same heads through the parser alone.
fn time_parser(rt: &impl Clock) -> io::Result<u128> {
    let began = Instant::now(rt)?;
    let mut parsed = 0u32;
    for _ in 0..POSTS {
        let mut room = [EMPTY_HEADER; 64];
        let mut request = Request::new(&mut room);
        if request.parse(HEAD).is_ok() {
            parsed = parsed.saturating_add(1);
        }
    }
    nanoseconds(rt, began, parsed)
}

// The same bytes over a pair of sockets, with no HTTP.
fn time_bare(rt: &impl Clock, near: &mut TcpLink, far: &mut TcpLink, one: &[u8]) -> io::Result<u128> {
    let mut room = [0u8; 4096];
    let mut there = [0u8; 4096];
    let answer = [0u8; 84];
    let began = Instant::now(rt)?;
    let mut moved = 0u32;
    for _ in 0..EXCHANGES {
        if near.write_all(one).is_ok()
            && far.read(&mut there).is_ok()
            && far.write_all(&answer).is_ok()
            && near.read(&mut room).is_ok()
        {
            moved = moved.saturating_add(1);
        }
    }
    nanoseconds(rt, began, moved)
}

fn time_sockets(rt: &impl Clock, alloc: Global, near: &mut TcpLink, far: TcpLink, one: &[u8]) -> io::Result<u128> {
    let mut room = [0u8; 4096];
    let mut wire = Wire::new(alloc, far);
    let began = Instant::now(rt)?;
    let mut served = 0u32;
    for _ in 0..EXCHANGES {
        if near.write_all(one).is_ok() && serve(alloc, &mut wire) && near.read(&mut room).is_ok() {
            served = served.saturating_add(1);
        }
    }
    nanoseconds(rt, began, served)
}

fn main(rt: HostRuntime) -> io::Result<()> {
    let alloc = rt.alloc();
    let each = time_memory(&rt, alloc)?;
    let alone = time_parser(&rt)?;
    let ratio = hundredths(each, alone);
    println!(rt; "links in memory: {each} ns a post; httparse alone: {alone} ns a head; {ratio} hundredths of that")?;
    let listener = TcpListener::bind(&rt, "127.0.0.1:0")?;
    let mut near = TcpLink::new(TcpStream::connect(&rt, listener.local_addr()?)?);
    let Ok(Some(mut far)) = TcpDoor::new(&listener).accept() else {
        return Err(io::Error::from(io::ErrorKind::NotConnected));
    };
    let one = post(alloc)?;
    let bare = time_bare(&rt, &mut near, &mut far, &one)?;
    let each = time_sockets(&rt, alloc, &mut near, far, &one)?;
    let ratio = hundredths(each, bare);
    println!(rt; "a pair of sockets: {each} ns an exchange; without HTTP: {bare} ns; {ratio} hundredths of that")?;
    let half = time_drip(&rt, alloc, 8_000)?;
    let whole = time_drip(&rt, alloc, 16_000)?;
    let ratio = hundredths(whole, half);
    println!(rt; "a byte at a time: a head of 8,000 bytes in {half} ns, of 16,000 in {whole} ns; {ratio} hundredths of that")?;
    Ok(())
}
RATTLE
cd "$work/crates/http_bench"
rt "${1:-run}"
