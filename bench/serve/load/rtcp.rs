//! What a datagram of RTCP costs: the server's processor time for each one that it receives.

use crate::conference::{Conference, Stream};
use crate::cost::{VIDEO, WARM_UP};
use crate::figures::{take_turns, Spread};
use crate::room::{Room, OUT_SOURCE, SOURCE};
use crate::server::{Kind, Programs};
use std::io;
use std::thread;
use std::time::{Duration, Instant};

/// Who sends: the one subscriber.
const SUBSCRIBER: usize = 1;

/// How many datagrams wait when the server goes on: fewer than a receive buffer of 208 KiB has room for, and than the rules let one
/// endpoint send in a millisecond.
const AT_ONCE: u32 = 64;

/// How many datagrams a run has.
const DATAGRAMS: u32 = 32_000;

/// How long the server has nothing to do after it has received what waited, so that no two lots come in one millisecond.
const REST: Duration = Duration::from_micros(1_500);

/// How long it may take to receive them.
const PATIENCE: Duration = Duration::from_secs(5);

/// How often it is looked whether it has.
const LOOK: Duration = Duration::from_micros(100);

/// A number that no packet has had, and that isn't the next one's.
const NOT_KEPT: u16 = 30_000;

/// A report with a source description, and NACKs that ask for packets that aren't kept.
pub fn rtcp(programs: &Programs, runs: usize) -> io::Result<()> {
    println!("rtcp: processor time for a datagram of RTCP, {AT_ONCE} at a time; {runs} runs");
    let datagrams = [("report and SDES", report()), ("NACK of 1 entry", nack(1)), ("NACK of 256 entries", nack(256))];
    for (name, datagram) in &datagrams {
        let kinds = [Kind::Plain, Kind::Unit];
        let each = take_turns(runs, kinds.len(), |at| measure(programs, kinds[at], datagram))?;
        let [plain, unit] = [0, 1].map(|at| Spread::of(each[at].iter().copied()));
        println!("  {name}, {} bytes, plain loop: {plain:.0} ns", datagram.len());
        println!("  {name}, {} bytes: {unit:.0} ns", datagram.len());
    }
    Ok(())
}

/// The processor time for each datagram in nanoseconds, of a server that is started for it and has sent packets on.
fn measure(programs: &Programs, kind: Kind, datagram: &[u8]) -> io::Result<f64> {
    let mut conference = Conference::open_joined(programs, kind, Room::new(2, 1, 1))?;
    conference.exchange(Stream { packets: WARM_UP, length: VIDEO, publishers: 1, pause: Duration::ZERO })?;
    send(&conference, datagram, WARM_UP)?;
    let before = conference.server.processor_time()?;
    send(&conference, datagram, DATAGRAMS)?;
    let took = conference.server.processor_time()? - before;
    conference.wait_until_taken()?;
    Ok(took as f64 / f64::from(DATAGRAMS))
}

/// Sends the datagram so many times while the server is held up, `AT_ONCE` at a time, so that it need never wait for the next one of them.
fn send(conference: &Conference, datagram: &[u8], count: u32) -> io::Result<()> {
    let Conference { server, sockets, unit, .. } = conference;
    for _ in 0..count / AT_ONCE {
        server.hold(true)?;
        for _ in 0..AT_ONCE {
            sockets[SUBSCRIBER].send_to(datagram, unit)?;
        }
        server.hold(false)?;
        let begin = Instant::now();
        while conference.waiting()? > 0 {
            if begin.elapsed() > PATIENCE {
                return Err(io::Error::other("the server doesn't receive"));
            }
            thread::sleep(LOOK);
        }
        thread::sleep(REST);
    }
    Ok(())
}

fn subscriber_source() -> [u8; 4] {
    (SOURCE + SUBSCRIBER as u32).to_be_bytes()
}

/// A receiver report with one block, of the leg, and a source description with a name (RFC 3550, sections 6.4.2 and 6.5).
fn report() -> Vec<u8> {
    const NAME: &[u8; 8] = b"ann@home";
    let mut bytes = vec![0x81, 201, 0, 7];
    bytes.extend(subscriber_source());
    bytes.extend(OUT_SOURCE.to_be_bytes());
    // Nothing lost, the highest number, no jitter, no report of the sender.
    bytes.extend([[0; 4], u32::from(WARM_UP as u16 - 1).to_be_bytes(), [0; 4], [0; 4], [0; 4]].concat());
    bytes.extend([0x81, 202, 0, 4]);
    bytes.extend(subscriber_source());
    bytes.extend([1, NAME.len() as u8]);
    bytes.extend(NAME);
    bytes.extend([0; 2]);
    bytes
}

/// A NACK of so many entries, each for one packet of the leg (RFC 4585, section 6.2.1).
fn nack(entries: u16) -> Vec<u8> {
    let mut bytes = vec![0x81, 205];
    bytes.extend((2 + entries).to_be_bytes());
    bytes.extend(subscriber_source());
    bytes.extend(OUT_SOURCE.to_be_bytes());
    for entry in 0..entries {
        bytes.extend((NOT_KEPT + entry).to_be_bytes());
        bytes.extend([0; 2]);
    }
    bytes
}
