//! A server with all who take part: each endpoint is a socket of the loopback interface.

use crate::room::{Room, OUT_SOURCE, SOURCE};
use crate::server::{Kind, Programs, Server};
use crate::system;
use std::collections::BTreeMap;
use std::io;
use std::net::{Ipv4Addr, SocketAddr, UdpSocket};
use std::sync::atomic::{AtomicU64, Ordering};
use std::thread;
use std::time::{Duration, Instant, SystemTime, UNIX_EPOCH};

/// How many bytes an RTP header has at least (RFC 3550, section 5.1); where a packet says when it was sent comes next.
const HEADER: usize = 12;

/// How many packets may be under way: fewer than a receive buffer of 208 KiB has room for.
const UNDER_WAY: u64 = 64;

/// How long nothing may come while something is due.
const PATIENCE: Duration = Duration::from_secs(5);

/// How long a server may take until it has heard all who join.
const JOIN_PATIENCE: Duration = Duration::from_secs(30);

/// How often the subscribers' sockets are looked at.
const LOOK: Duration = Duration::from_micros(100);

/// How often it is looked whether what is under way has come.
const WAIT: Duration = Duration::from_micros(20);

/// Stands for the packets that came in an exchange that failed.
const FAILED: u64 = u64::MAX;

/// What is sent: so many packets in all of so many bytes, of the first publishers in turns, so far apart. Without a pause as
/// many as can be taken are sent, 64 at most under way.
#[derive(Clone, Copy)]
pub struct Stream {
    pub packets: u32,
    pub length: usize,
    pub publishers: usize,
    pub pause: Duration,
}

/// A packet that came to a subscriber.
pub struct Taken<'a> {
    pub socket: &'a UdpSocket,
    /// When its publisher sent it, since the beginning of 1970.
    pub sent: Duration,
}

pub struct Conference {
    pub server: Server,
    pub room: Room,
    pub sockets: Vec<UdpSocket>,
    pub unit: SocketAddr,
    /// The number of the next packet of each publisher.
    sends: Vec<u16>,
    /// The number of the next packet of each leg.
    takes: Vec<u16>,
}

impl Conference {
    /// Starts a server for this room; nobody has joined yet. The plain loop sends what comes of the one publisher there is to
    /// each subscriber, or what comes of anybody to each other one.
    pub fn open(programs: &Programs, kind: Kind, room: Room) -> io::Result<Conference> {
        let any_port = (Ipv4Addr::LOCALHOST, 0);
        // A port that was free a moment ago.
        let unit = UdpSocket::bind(any_port)?.local_addr()?;
        let mut sockets = Vec::new();
        for _ in 0..room.endpoints {
            let socket = UdpSocket::bind(any_port)?;
            socket.set_nonblocking(true)?;
            sockets.push(socket);
        }
        let addresses = sockets.iter().map(UdpSocket::local_addr).collect::<io::Result<Vec<_>>>()?;
        let server = match kind {
            Kind::Unit => programs.start_unit(&room.settings(unit, &addresses))?,
            Kind::Plain => {
                let (how, others) =
                    if room.publishers == 1 { ("to", &addresses[1..=room.subscribers]) } else { ("among", &addresses[..]) };
                let mut words = vec![unit.to_string(), how.to_string()];
                words.extend(others.iter().map(SocketAddr::to_string));
                programs.start_plain(&words)?
            }
        };
        let (sends, takes) = (vec![0; room.publishers], vec![0; room.publishers * room.subscribers]);
        Ok(Conference { server, room, sockets, unit, sends, takes })
    }

    /// Starts a server for this room, and has everybody join.
    pub fn open_joined(programs: &Programs, kind: Kind, room: Room) -> io::Result<Conference> {
        let conference = Conference::open(programs, kind, room)?;
        conference.report()?;
        conference.wait_until_taken()?;
        Ok(conference)
    }

    /// Has each endpoint send a report, so that it is present once that is heard.
    pub fn report(&self) -> io::Result<()> {
        for (socket, source) in self.sockets.iter().zip(SOURCE..) {
            let mut report = [0x80, 201, 0, 1, 0, 0, 0, 0];
            report[4..].copy_from_slice(&source.to_be_bytes());
            socket.send_to(&report, self.unit)?;
        }
        Ok(())
    }

    /// Waits until the server has received all that was sent to it, and a moment more; fails if some of it was dropped.
    pub fn wait_until_taken(&self) -> io::Result<()> {
        const MOMENT: Duration = Duration::from_millis(50);
        let begin = Instant::now();
        loop {
            let bytes = self.waiting()?;
            if begin.elapsed() > JOIN_PATIENCE {
                return Err(io::Error::other(format!("{bytes} bytes wait")));
            }
            thread::sleep(MOMENT);
            if bytes == 0 {
                return Ok(());
            }
        }
    }

    /// How many bytes wait to be received by the server; fails if a datagram was dropped.
    pub fn waiting(&self) -> io::Result<u64> {
        match system::waiting(self.unit)? {
            (bytes, 0) => Ok(bytes),
            (bytes, dropped) => Err(io::Error::other(format!("{dropped} datagrams were dropped, and {bytes} bytes wait"))),
        }
    }

    /// Sends one more packet of a publisher.
    pub fn send_one(&mut self, publisher: usize, length: usize) -> io::Result<()> {
        send_one(&self.sockets, self.unit, &mut self.sends, publisher, length)
    }

    /// Sends this stream, while another thread takes all of it at each subscriber, where none may be missing, or come out of turn.
    pub fn exchange(&mut self, stream: Stream) -> io::Result<()> {
        match self.exchange_seen(stream, |_| Ok(()))? {
            0 => Ok(()),
            lost => Err(io::Error::other(format!("{lost} packets were lost"))),
        }
    }

    /// As `exchange`, but packets may be missing, and it says how many; shows each packet that came.
    pub fn exchange_seen(&mut self, stream: Stream, mut see: impl FnMut(Taken) -> io::Result<()> + Send) -> io::Result<u64> {
        let Conference { room, sockets, unit, sends, takes, .. } = self;
        let come = AtomicU64::new(0);
        thread::scope(|scope| {
            let taker = scope.spawn(|| {
                let lost = take(sockets, room, takes, stream, &come, &mut see);
                if lost.is_err() {
                    come.store(FAILED, Ordering::Release);
                }
                lost
            });
            let sender = scope.spawn(|| send(sockets, *unit, sends, stream, &come));
            sender.join().map_err(|_| io::Error::other("sending panicked"))??;
            taker.join().map_err(|_| io::Error::other("taking panicked"))?
        })
    }
}

fn send_one(sockets: &[UdpSocket], unit: SocketAddr, sends: &mut [u16], publisher: usize, length: usize) -> io::Result<()> {
    let mut packet = vec![0x5a; length];
    packet[..HEADER].copy_from_slice(&[0x80, 96, 0, 0, 0, 0, 0, 0, 0, 0, 0, 0]);
    packet[2..4].copy_from_slice(&sends[publisher].to_be_bytes());
    packet[8..12].copy_from_slice(&(SOURCE + publisher as u32).to_be_bytes());
    let now = SystemTime::now().duration_since(UNIX_EPOCH).map_err(io::Error::other)?;
    packet[HEADER..HEADER + 8].copy_from_slice(&(now.as_nanos() as u64).to_be_bytes());
    sockets[publisher].send_to(&packet, unit)?;
    sends[publisher] = sends[publisher].wrapping_add(1);
    Ok(())
}

/// Sends a stream. If as many packets are under way as may be, it waits until half of them have come.
fn send(sockets: &[UdpSocket], unit: SocketAddr, sends: &mut [u16], stream: Stream, come: &AtomicU64) -> io::Result<()> {
    system::sleep_sharply();
    let mut due = Instant::now();
    for count in 0..u64::from(stream.packets) {
        send_one(sockets, unit, sends, count as usize % stream.publishers, stream.length)?;
        due += stream.pause;
        if !stream.pause.is_zero() {
            thread::sleep(due.saturating_duration_since(Instant::now()));
        }
        let mut most = UNDER_WAY;
        while (count + 1).saturating_sub(come.load(Ordering::Acquire)) >= most {
            most = UNDER_WAY / 2;
            thread::sleep(WAIT);
        }
        if come.load(Ordering::Acquire) == FAILED {
            break;
        }
    }
    Ok(())
}

/// What is due to a subscriber: how many publishers of the stream it has, and how many of their packets came.
#[derive(Default)]
struct Due {
    legs: u64,
    come: u64,
}

/// Takes a stream at all of its subscribers, and says how many packets were lost. It looks from time to time and doesn't wait for a
/// packet, so that the server needn't wake anybody.
fn take(
    sockets: &[UdpSocket],
    room: &Room,
    takes: &mut [u16],
    stream: Stream,
    come: &AtomicU64,
    see: &mut impl FnMut(Taken) -> io::Result<()>,
) -> io::Result<u64> {
    system::sleep_sharply();
    let mut all_due: BTreeMap<usize, Due> = BTreeMap::new();
    for leg in 0..stream.publishers * room.subscribers {
        all_due.entry(room.subscriber(leg)).or_default().legs += 1;
    }
    let all = u64::from(stream.packets) * room.subscribers as u64;
    let (mut count, mut lost, mut last) = (0, 0, Instant::now());
    let mut buffer = [0; 2048];
    while count < all {
        let before = count;
        for (&subscriber, due) in &mut all_due {
            let socket = &sockets[subscriber];
            while let Some(datagram) = receive(socket, &mut buffer)? {
                // Reports have types from 192 to 223 (RFC 5761, section 4).
                if datagram.len() > 1 && (192..224).contains(&datagram[1]) {
                    continue;
                }
                let (sent, missing) = check(datagram, subscriber, room, takes, stream.length)?;
                see(Taken { socket, sent })?;
                due.come += 1 + missing;
                count += 1 + missing;
                lost += missing;
            }
        }
        let slowest = all_due.values().map(|due| due.come * stream.publishers as u64 / due.legs).min();
        come.store(slowest.unwrap_or(0), Ordering::Release);
        if count > before {
            last = Instant::now();
        } else if last.elapsed() > PATIENCE {
            return Err(io::Error::other(format!("{} packets came of {all}, and no more", count - lost)));
        }
        thread::sleep(LOOK);
    }
    Ok(lost)
}

/// The next datagram that waits at a socket, if any does.
pub fn receive<'a>(socket: &UdpSocket, buffer: &'a mut [u8]) -> io::Result<Option<&'a [u8]>> {
    match socket.recv_from(buffer) {
        Ok((length, _)) => Ok(Some(&buffer[..length])),
        Err(error) if error.kind() == io::ErrorKind::WouldBlock => Ok(None),
        Err(error) => Err(error),
    }
}

/// Checks that this is a packet of a leg of the subscriber, and says when it was sent, and how many before it are missing.
fn check(datagram: &[u8], subscriber: usize, room: &Room, takes: &mut [u16], length: usize) -> io::Result<(Duration, u64)> {
    /// A number that is farther ahead is one that came late.
    const MOST_MISSING: u16 = 3_000;
    let wrong = || io::Error::other(format!("to {subscriber} came {:02x?}", &datagram[..datagram.len().min(HEADER)]));
    if datagram.len() != length || datagram[0] != 0x80 {
        return Err(wrong());
    }
    let (header, payload) = datagram.split_at(HEADER);
    let number = u16::from_be_bytes([header[2], header[3]]);
    let source = u32::from_be_bytes([header[8], header[9], header[10], header[11]]);
    let leg = source.wrapping_sub(OUT_SOURCE) as usize;
    let next = takes.get_mut(leg).filter(|_| room.subscriber(leg) == subscriber).ok_or_else(wrong)?;
    let missing = number.wrapping_sub(*next);
    if missing > MOST_MISSING {
        return Err(wrong());
    }
    *next = number.wrapping_add(1);
    let stamp = payload.first_chunk().ok_or_else(wrong)?;
    Ok((Duration::from_nanos(u64::from_be_bytes(*stamp)), u64::from(missing)))
}
