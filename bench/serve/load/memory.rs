//! How much memory a server takes, and how soon a full room's first packet comes.

use crate::conference::{receive, Conference, Stream};
use crate::cost::VIDEO;
use crate::figures::{take_turns, Spread};
use crate::room::Room;
use crate::server::{Kind, Memory, Programs};
use std::io;
use std::thread;
use std::time::Duration;

/// How long a first packet may take.
const PATIENCE: Duration = Duration::from_secs(30);

const KIB_OF_MIB: f64 = 1_024.0;

pub fn memory(programs: &Programs, runs: usize) -> io::Result<()> {
    println!("memory: VmRSS and VmHWM in MiB, and milliseconds from `serving` to the first packet; {runs} runs");
    let full_rings = Room::new(33, 32, 32);
    let filled = take_turns(runs, 1, |_| fill(programs, full_rings))?;
    println!("  1024 legs, 512 packets of {VIDEO} bytes in each ring: {}", spreads(filled[0].iter()));
    let least = Room::new(17, 1, 16);
    let cases = [
        ("plain loop, 16 subscribers", Kind::Plain, least),
        ("17 present, 16 legs, rings of 512", Kind::Unit, least),
        ("256 present, 4096 legs, rings of 8", Kind::Unit, Room::full()),
    ];
    let first = take_turns(runs, cases.len(), |at| first_packet(programs, cases[at].1, cases[at].2))?;
    for ((name, ..), runs) in cases.iter().zip(&first) {
        let after = Spread::of(runs.iter().map(|(after, _)| after.as_secs_f64() * 1e3));
        println!("  {name}: first packet {after:.1} ms after; {}", spreads(runs.iter().map(|(_, memory)| memory)));
    }
    Ok(())
}

fn spreads<'a>(runs: impl Iterator<Item = &'a Memory> + Clone) -> String {
    let now = Spread::of(runs.clone().map(|memory| memory.now / KIB_OF_MIB));
    let most = Spread::of(runs.map(|memory| memory.most / KIB_OF_MIB));
    format!("VmRSS {now:.1}, VmHWM {most:.1}")
}

/// Has every publisher send as many packets as the rings of its legs hold.
fn fill(programs: &Programs, room: Room) -> io::Result<Memory> {
    let mut conference = Conference::open_joined(programs, Kind::Unit, room)?;
    let packets = (room.publishers * room.ring) as u32;
    conference.exchange(Stream { packets, length: VIDEO, publishers: room.publishers, pause: Duration::ZERO })?;
    conference.server.memory()
}

/// Has everybody join at once and a publisher send a packet each millisecond until one comes to its first subscriber.
fn first_packet(programs: &Programs, kind: Kind, room: Room) -> io::Result<(Duration, Memory)> {
    const PUBLISHER: usize = 0;
    const PACE: Duration = Duration::from_millis(1);
    let mut conference = Conference::open(programs, kind, room)?;
    conference.report()?;
    let first = room.subscriber(PUBLISHER * room.subscribers);
    let mut buffer = [0; 2048];
    while conference.server.since.elapsed() < PATIENCE {
        conference.send_one(PUBLISHER, VIDEO)?;
        thread::sleep(PACE);
        while let Some(datagram) = receive(&conference.sockets[first], &mut buffer)? {
            if datagram.len() == VIDEO {
                return Ok((conference.server.since.elapsed(), conference.server.memory()?));
            }
        }
    }
    Err(io::Error::other("no packet came"))
}
