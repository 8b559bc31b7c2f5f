//! How many packets one and two workers take at most.

use crate::conference::{Conference, Stream};
use crate::cost::{VIDEO, WARM_UP};
use crate::figures::{take_turns, Spread};
use crate::room::Room;
use crate::server::{Kind, Programs};
use std::io;
use std::time::{Duration, Instant};

const SUBSCRIBERS: usize = 16;

/// What a run gave.
#[derive(Clone, Copy)]
struct Rate {
    /// Packets out a second.
    by_clock: f64,
    /// Packets out in a second of the processor time of the thread that took most.
    by_thread: f64,
    /// The processor time of that thread, in percent of the time that passed.
    busy: f64,
    /// The processor time of all threads for a packet out, in nanoseconds.
    each: f64,
}

/// The plain loop, one worker and two.
pub fn workers(programs: &Programs, runs: usize) -> io::Result<()> {
    let room = Room::new(SUBSCRIBERS + 1, 1, SUBSCRIBERS);
    let cases = [("plain loop", Kind::Plain, 1), ("1 worker", Kind::Unit, 1), ("2 workers", Kind::Unit, 2)];
    println!("workers: packets out a second, {VIDEO} bytes, {SUBSCRIBERS} subscribers, as many as can be taken; {runs} runs");
    let rates = take_turns(runs, cases.len(), |at| measure(programs, cases[at].1, Room { workers: cases[at].2, ..room }))?;
    let of = |at: usize, figure: fn(&Rate) -> f64| rates[at].iter().map(figure).collect::<Vec<f64>>();
    for (at, (name, ..)) in cases.iter().enumerate() {
        println!(
            "  {name}: {:.0} by the clock, {:.0} by the busiest thread, busy {:.0} percent; {:.0} ns a packet out",
            Spread::of(of(at, |rate| rate.by_clock)),
            Spread::of(of(at, |rate| rate.by_thread)),
            Spread::of(of(at, |rate| rate.busy)),
            Spread::of(of(at, |rate| rate.each))
        );
    }
    println!(
        "  2 workers take {} times what 1 does by the clock, {} times by the busiest thread",
        Spread::of_ratios(&of(2, |rate| rate.by_clock), &of(1, |rate| rate.by_clock)),
        Spread::of_ratios(&of(2, |rate| rate.by_thread), &of(1, |rate| rate.by_thread))
    );
    Ok(())
}

fn measure(programs: &Programs, kind: Kind, room: Room) -> io::Result<Rate> {
    const PACKETS: u32 = 20_000;
    const NANOSECONDS: f64 = 1e9;
    let mut conference = Conference::open_joined(programs, kind, room)?;
    let stream = Stream { packets: WARM_UP, length: VIDEO, publishers: 1, pause: Duration::ZERO };
    conference.exchange(stream)?;
    let before = conference.server.threads()?;
    let begin = Instant::now();
    conference.exchange(Stream { packets: PACKETS, ..stream })?;
    let passed = begin.elapsed().as_secs_f64();
    let after = conference.server.threads()?;
    let took: Vec<u64> = after.iter().zip(&before).map(|(after, before)| after - before).collect();
    let busiest = took.iter().copied().max().unwrap_or(0) as f64 / NANOSECONDS;
    let out = f64::from(PACKETS) * SUBSCRIBERS as f64;
    let all = took.iter().sum::<u64>() as f64;
    Ok(Rate { by_clock: out / passed, by_thread: out / busiest, busy: 100.0 * busiest / passed, each: all / out })
}
