//! What a packet costs: the server's processor time for each packet that it sends.

use crate::conference::{Conference, Stream};
use crate::figures::{take_turns, Spread};
use crate::room::Room;
use crate::server::{Kind, Programs};
use std::io;
use std::time::Duration;

/// How many bytes a packet of video has.
pub const VIDEO: usize = 1_200;

/// How many packets go through before the time is taken, at most.
pub const WARM_UP: u32 = 2_000;

/// How many endpoints are present in the rooms beside the least one.
const PRESENT: [usize; 2] = [64, 256];

/// As many packets as can be taken, at 1, 4 and 16 subscribers.
pub fn unpaced(programs: &Programs, runs: usize) -> io::Result<()> {
    const OUT: u32 = 96_000;
    println!("cost: processor time for a packet out, {VIDEO} bytes, as many as can be taken; {runs} runs");
    for subscribers in [1, 4, 16] {
        let stream = Stream { packets: OUT / subscribers as u32, length: VIDEO, publishers: 1, pause: Duration::ZERO };
        let present = [subscribers + 1].into_iter().chain(PRESENT);
        let rooms: Vec<Room> = present.map(|endpoints| Room::new(endpoints, 1, subscribers)).collect();
        compare(programs, runs, stream, &rooms)?;
    }
    Ok(())
}

/// 5,000 packets a second and one subscriber.
pub fn paced(programs: &Programs, runs: usize) -> io::Result<()> {
    const PAUSE: Duration = Duration::from_micros(200);
    println!("paced: processor time for a packet out, {VIDEO} bytes, 5,000 a second; {runs} runs");
    let stream = Stream { packets: 10_000, length: VIDEO, publishers: 1, pause: PAUSE };
    compare(programs, runs, stream, &[Room::new(2, 1, 1)])
}

/// 32 publishers of sound at 50 packets a second each, evenly apart, everyone to everyone.
pub fn audio(programs: &Programs, runs: usize) -> io::Result<()> {
    const PUBLISHERS: usize = 32;
    const SOUND: usize = 160;
    const INTERVAL: Duration = Duration::from_millis(20);
    const INTERVALS: u32 = 200;
    println!("audio: processor time for a packet out, {SOUND} bytes, {PUBLISHERS} publishers at 50 a second, everyone to everyone; {runs} runs");
    let packets = PUBLISHERS as u32 * INTERVALS;
    let stream = Stream { packets, length: SOUND, publishers: PUBLISHERS, pause: INTERVAL / PUBLISHERS as u32 };
    compare(programs, runs, stream, &[Room::new(PUBLISHERS, PUBLISHERS, PUBLISHERS - 1)])
}

/// Prints what a packet of this stream costs in the plain loop, and in the unit in each of these rooms; and if there are several, how
/// much more in the last than in the first.
fn compare(programs: &Programs, runs: usize, stream: Stream, rooms: &[Room]) -> io::Result<()> {
    let subscribers = rooms[0].subscribers;
    let each = take_turns(runs, 1 + rooms.len(), |at| match at {
        0 => measure(programs, Kind::Plain, rooms[0], stream),
        _ => measure(programs, Kind::Unit, rooms[at - 1], stream),
    })?;
    let (plain, units) = (&each[0], &each[1..]);
    let spread = |figures: &[f64]| Spread::of(figures.iter().copied());
    let to = if subscribers == 1 { "1 subscriber".to_string() } else { format!("{subscribers} subscribers") };
    println!("  {to}, plain loop: {:.0} ns", spread(plain));
    for (room, figures) in rooms.iter().zip(units) {
        let least = spread(figures).least / spread(plain).least;
        let (present, times) = (room.endpoints, Spread::of_ratios(figures, plain));
        println!("  {to}, {present} present: {:.0} ns, {times} times; least by least {least:.2}", spread(figures));
    }
    if let [first, .., last] = units {
        let more = Spread::of(first.iter().zip(last).map(|(first, last)| 100.0 * (last / first - 1.0)));
        let (few, many) = (rooms[0].endpoints, rooms[rooms.len() - 1].endpoints);
        println!("  {to}, flat: with {many} present {more:.1} percent more than with {few}");
    }
    Ok(())
}

/// The processor time for each packet out in nanoseconds, of a server that is started for it.
fn measure(programs: &Programs, kind: Kind, room: Room, stream: Stream) -> io::Result<f64> {
    let mut conference = Conference::open_joined(programs, kind, room)?;
    conference.exchange(Stream { packets: stream.packets.min(WARM_UP), ..stream })?;
    let before = conference.server.processor_time()?;
    conference.exchange(stream)?;
    let took = conference.server.processor_time()? - before;
    Ok(took as f64 / (f64::from(stream.packets) * room.subscribers as f64))
}
