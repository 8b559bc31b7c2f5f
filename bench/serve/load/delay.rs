//! The delay through a server: from the moment when a packet is sent to the one when it is at the subscriber's socket.

use crate::conference::{Conference, Stream};
use crate::cost::{VIDEO, WARM_UP};
use crate::figures::{per_mille, take_turns, Spread};
use crate::room::Room;
use crate::server::{Kind, Programs};
use crate::system::arrival;
use std::io;
use std::time::Duration;

/// Half, 99 percent and 99.9 percent of the packets, in per mille.
const PARTS: [usize; 3] = [500, 990, 999];

/// 500 packets a second.
const PAUSE: Duration = Duration::from_millis(2);

/// Six seconds a run.
const PACKETS: u32 = 3_000;

/// In how many slots of a second reports go out, where they don't all at once.
const SLOTS: u32 = 50;

/// The plain loop, the unit in a room of 17, and in a full one with reports each second, all at once and in slots, of which one publisher
/// is looked at.
pub fn delay(programs: &Programs, runs: usize) -> io::Result<()> {
    let subscribers = Room::full().subscribers;
    let least = Room::new(subscribers + 1, 1, subscribers);
    let full = Room { report_ms: 1_000, ..Room::full() };
    let cases = [
        ("plain loop", Kind::Plain, least),
        ("17 present", Kind::Unit, least),
        ("256 present, 4096 legs", Kind::Unit, full),
        ("the same, reports in 50 slots", Kind::Unit, Room { report_slots: SLOTS, ..full }),
    ];
    println!("delay: of {VIDEO} bytes to {subscribers} subscribers, 500 packets a second, in microseconds; {runs} runs");
    let each = take_turns(runs, cases.len(), |at| measure(programs, cases[at].1, cases[at].2))?;
    let of = |at: usize, figure: usize| each[at].iter().map(|run| run[figure]).collect::<Vec<f64>>();
    for (figure, per_mille) in PARTS.into_iter().enumerate() {
        let (percent, plain) = (per_mille as f64 / 10.0, of(0, figure));
        for (at, (name, kind, _)) in cases.iter().enumerate() {
            print!("  {percent:.1} percent within, {name}: {:.1} us", Spread::of(of(at, figure)));
            match kind {
                Kind::Plain => println!(),
                Kind::Unit => println!(", {} times", Spread::of_ratios(&of(at, figure), &plain)),
            }
        }
    }
    let all = PACKETS as usize * subscribers;
    for (at, (name, ..)) in cases.iter().enumerate() {
        println!("  lost of {all}, {name}: {:.0}", Spread::of(of(at, PARTS.len())));
    }
    Ok(())
}

/// The delays in microseconds that so many of the packets don't exceed; then how many packets were lost.
fn measure(programs: &Programs, kind: Kind, room: Room) -> io::Result<Vec<f64>> {
    let mut conference = Conference::open_joined(programs, kind, room)?;
    for socket in &conference.sockets {
        // Nothing came yet, which is what it says; from now on moments are noted.
        let _ = arrival(socket);
    }
    let stream = Stream { packets: WARM_UP / 4, length: VIDEO, publishers: 1, pause: PAUSE };
    conference.exchange_seen(stream, |_| Ok(()))?;
    let mut delays = Vec::new();
    let lost = conference.exchange_seen(Stream { packets: PACKETS, ..stream }, |taken| {
        let delay = arrival(taken.socket)?.saturating_sub(taken.sent);
        delays.push(delay.as_secs_f64() * 1e6);
        Ok(())
    })?;
    delays.sort_by(f64::total_cmp);
    Ok(PARTS.iter().map(|part| per_mille(&delays, *part)).chain([lost as f64]).collect())
}
