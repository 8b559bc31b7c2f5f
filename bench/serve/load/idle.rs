//! What a server takes of a processor while nothing comes.

use crate::conference::{receive, Conference};
use crate::figures::Spread;
use crate::room::{Room, OUT_SOURCE, SOURCE};
use crate::server::{Kind, Programs};
use std::io;
use std::thread;
use std::time::Duration;

/// How long each look lasts; a run has one.
const LOOK: Duration = Duration::from_secs(2);

/// The publishers that are asked for a rate, and by how many subscribers each.
const ASKED: usize = 16;
const REQUESTS: usize = 10;

/// So old may a request grow: longer than the part takes.
const REQUEST_MS: u32 = 3_600_000;

/// With 256 present, of whom 16 publish or all do, without and with requests that are live.
pub fn idle(programs: &Programs, runs: usize) -> io::Result<()> {
    let few = Room { publishers: ASKED, ..Room::full() };
    let plain = Room { publishers: 1, ..few };
    println!(
        "idle: share of a processor in percent while nothing comes, 256 present; {runs} looks of {} seconds",
        LOOK.as_secs()
    );
    println!("  plain loop: {:.3}", measure(programs, Kind::Plain, plain, false, runs)?);
    for room in [few, Room::full()] {
        let legs = room.publishers * room.subscribers;
        println!("  {legs} legs, nothing live: {:.3}", measure(programs, Kind::Unit, room, false, runs)?);
        let room = Room { request_ms: REQUEST_MS, ..room };
        let spread = measure(programs, Kind::Unit, room, true, runs)?;
        println!("  {legs} legs, {REQUESTS} requests live at each of {ASKED} publishers: {spread:.3}");
    }
    Ok(())
}

fn measure(programs: &Programs, kind: Kind, room: Room, asks: bool, looks: usize) -> io::Result<Spread> {
    let conference = Conference::open_joined(programs, kind, room)?;
    if asks {
        ask(&conference)?;
    }
    let mut shares = Vec::new();
    for _ in 0..looks {
        let before = conference.server.processor_time()?;
        thread::sleep(LOOK);
        let took = conference.server.processor_time()? - before;
        shares.push(100.0 * took as f64 / LOOK.as_nanos() as f64);
    }
    Ok(Spread::of(shares))
}

/// Has the first subscribers of each publisher ask it for a rate, each for another, and sees that the publisher is told.
fn ask(conference: &Conference) -> io::Result<()> {
    const PACE: Duration = Duration::from_millis(1);
    let Conference { room, sockets, unit, .. } = conference;
    for publisher in 0..ASKED {
        for request in 0..REQUESTS {
            let leg = publisher * room.subscribers + request;
            let subscriber = room.subscriber(leg);
            sockets[subscriber].send_to(&bound(subscriber, leg, request), unit)?;
            thread::sleep(PACE);
        }
    }
    conference.wait_until_taken()?;
    let mut buffer = [0; 2048];
    for socket in &sockets[..ASKED] {
        let mut told = false;
        while let Some(datagram) = receive(socket, &mut buffer)? {
            told |= datagram.windows(2).any(|head| head == [0x83, 205]);
        }
        if !told {
            return Err(io::Error::other("a publisher wasn't told of what it was asked for"));
        }
    }
    Ok(())
}

/// A request of the subscriber for a bound on what comes on the leg (TMMBR, RFC 5104, section 4.2.1.1): the more of them there
/// are, the higher the rate and the overhead for each packet.
fn bound(subscriber: usize, leg: usize, request: usize) -> [u8; 20] {
    let (mantissa, overhead) = (100_000 + 2_000 * request as u32, 40 + 10 * request as u32);
    let mut packet = [0; 20];
    packet[..4].copy_from_slice(&[0x83, 205, 0, 4]);
    packet[4..8].copy_from_slice(&(SOURCE + subscriber as u32).to_be_bytes());
    packet[12..16].copy_from_slice(&(OUT_SOURCE + leg as u32).to_be_bytes());
    packet[16..].copy_from_slice(&(mantissa << 9 | overhead).to_be_bytes());
    packet
}
