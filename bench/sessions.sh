#!/bin/sh
# Times sessions: beginning them; finding, renewing and asking for expired ones in turn; ending them.
# Run from anywhere: sh bench/sessions.sh [COUNT]. It needs `rt`, and builds in a new folder under
# TMPDIR. It goes through a hundredth of COUNT (10000, which is the most), a tenth of it, and COUNT.
. "$(dirname "$0")/common.sh"
prepare sessions_bench 'ifmap_elem ifmap_io ifmap_meta ifmap_session'
crate="$work/crates/sessions_bench"
mkdir -p "$crate/proofs/begin_for" "$crate/proofs/serial_of"
echo 'mod Options' > "$crate/proofs/Lib.antt"
cat > "$crate/proofs/Options.antt" <<'ANTT'
use Rattle.std.proofs.Common.{◌≡◌, refl, Option, None, Some}
use Rattle.std.specs.Option.{option_map}

pub map_none : {A B : Type 0} (f : A → B) (o : Option A) → option_map f o ≡ None → o ≡ None
map_none f None e = refl
map_none f (Some x) e = cc
ANTT
cat > "$crate/src/main.rt" <<'RATTLE'
//! Begins sessions, takes a request in each in turn, and ends them.
#![tactic(auto)]

ghost use Rattle.std.specs.Prelude.{IfSome};
ghost use Rattle.ifmap_session.specs.Sessions.{IsLive};

use ifmap_elem::Text;
use ifmap_io::Moment;
use ifmap_meta::ClientName;
use ifmap_session::{Sessions, limit_of};
use std::alloc::{AllocError as NoMemory, Global};
use std::env;
use std::io;
use std::rt::Runtime;
use std::time::Instant;

const TTL: u32 = 180;

fn moment_after(seconds: u64) -> Result<Moment, NoMemory> {
    Moment::new(1_000_000_000u64.saturating_add(seconds)).ok_or(NoMemory)
}

// Names in no order.
fn clients_of(alloc: Global, count: u32) -> Result<Vec<ClientName>, NoMemory> {
    let mut clients = Vec::with_capacity(alloc, count as usize)?;
    for number in 0..count {
        let word = number.wrapping_mul(2_654_435_761);
        let text = Text(format!(in alloc; "client-{word}")?);
        clients.push(ClientName::new(text).ok_or(NoMemory)?)?;
    }
    Ok(clients)
}

fn begin_for(
    alloc: Global,
    sessions: &mut Sessions,
    client: &ClientName,
    moment: Moment,
) -> Result<Text, NoMemory> {
    if sessions.of_client(client).is_some() {
        return Err(NoMemory);
    }
    match sessions.begin(alloc, client, 1, limit_of(None), moment) {
        Ok(begun) => Ok(begun.id),
        Err(_) => Err(NoMemory),
    }
}

fn begin_all(
    alloc: Global,
    sessions: &mut Sessions,
    clients: &[ClientName],
    moment: Moment,
) -> Result<Vec<Text>, NoMemory> {
    let mut ids = Vec::with_capacity(alloc, clients.len())?;
    for client in clients {
        ids.push(begin_for(alloc, sessions, client, moment)?)?;
    }
    Ok(ids)
}

fn serial_of(sessions: &Sessions, id: &Text) -> Option<u64>
    ensures { IfSome result (λ serial. IsLive serial sessions.now.live) }
{
    match sessions.owner(id) {
        Some((serial, _)) => Some(serial),
        None => None,
    }
}

fn renew_by(sessions: &mut Sessions, id: &Text, moment: Moment) -> bool {
    let Some(serial) = serial_of(sessions, id) else {
        return false;
    };
    sessions.renew(serial, moment);
    true
}

// A request in each session, with a look for expired ones before it.
fn request_all(sessions: &mut Sessions, ids: &[Text], moment: Moment) -> u32 {
    let mut accepted = 0u32;
    for id in ids {
        if !sessions.any_expired(moment, TTL) && renew_by(sessions, id, moment) {
            accepted = accepted.wrapping_add(1);
        }
    }
    accepted
}

fn end_by(sessions: &mut Sessions, id: &Text) -> bool {
    let Some(serial) = serial_of(sessions, id) else {
        return false;
    };
    sessions.end(serial);
    true
}

fn end_all(sessions: &mut Sessions, ids: &[Text]) -> u32 {
    let mut ended = 0u32;
    for id in ids {
        if end_by(sessions, id) {
            ended = ended.wrapping_add(1);
        }
    }
    ended
}

// The least time of five rounds of requests, in nanoseconds, and how many the last accepted.
fn time_requests<R: Runtime>(
    rt: &R,
    sessions: &mut Sessions,
    ids: &[Text],
) -> io::Result<(u128, u32)> {
    let mut least = u128::MAX;
    let mut accepted = 0;
    for round in 1u64..=5 {
        let moment = moment_after(round).map_err(io::Error::from)?;
        let start = Instant::now(rt)?;
        accepted = request_all(sessions, ids, moment);
        least = least.min(start.elapsed(rt)?.as_nanos());
    }
    Ok((least, accepted))
}

// How many sessions are expired 185 seconds after the first moment, and the time of the call.
fn time_expired<R: Runtime>(
    rt: &R,
    alloc: Global,
    sessions: &Sessions,
) -> io::Result<(u128, usize)> {
    let moment = moment_after(185).map_err(io::Error::from)?;
    let start = Instant::now(rt)?;
    let expired = sessions.expired(alloc, moment, TTL).map_err(io::Error::from)?;
    Ok((start.elapsed(rt)?.as_nanos(), expired.len()))
}

fn bench<R: Runtime>(rt: &R, alloc: Global, count: u32) -> io::Result<()> {
    let each = u128::from(count.max(1));
    let clients = clients_of(alloc, count).map_err(io::Error::from)?;
    let mut sessions = Sessions::new(alloc);
    let first = moment_after(0).map_err(io::Error::from)?;
    let start = Instant::now(rt)?;
    let ids = begin_all(alloc, &mut sessions, &clients, first).map_err(io::Error::from)?;
    let begun = start.elapsed(rt)?.as_nanos() / each;
    let (nanos, accepted) = time_requests(rt, &mut sessions, &ids)?;
    let requested = nanos / each;
    let (nanos, expired) = time_expired(rt, alloc, &sessions)?;
    let told = nanos / each;
    let start = Instant::now(rt)?;
    let ended = end_all(&mut sessions, &ids);
    let ending = start.elapsed(rt)?.as_nanos() / each;
    rt.println(format_args!("{count} sessions: begun in {begun} ns each; {accepted} found and renewed, with a look for expired ones before each, in {requested} ns; {expired} expired told in {told} ns; {ended} ended in {ending} ns"))
}

fn count_of<R: env::Env + Alloc>(rt: &R) -> u32 {
    let Ok(words) = env::args(rt) else {
        return 10_000;
    };
    let mut count = 10_000;
    for word in words {
        if let Ok(number) = word.as_str().parse::<u32>() {
            count = number;
        }
    }
    count.min(10_000)
}

fn main(rt: HostRuntime) -> io::Result<()> {
    let alloc = rt.alloc();
    let count = count_of(&rt);
    for part in [100, 10, 1] {
        bench(&rt, alloc, count / part)?;
    }
    Ok(())
}
RATTLE
cd "$crate"
rt run -- "${1:-10000}"
