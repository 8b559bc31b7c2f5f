//! Two endpoints send each other packets through `sfu serve`, each asks for every tenth again, and all that comes is compared
//! with what was sent. Fails at the first packet that doesn't come, comes out of turn, or comes again otherwise than before.
//!
//!     exchange PACKETS ADDRESS SFU
//!
//! PACKETS is how many are sent in all, ADDRESS the IP address of all sockets, SFU the program.

use std::collections::HashMap;
use std::env;
use std::fs;
use std::io::{self, BufRead, BufReader, Read};
use std::net::{IpAddr, SocketAddr, UdpSocket};
use std::process::{Child, Command, Stdio};
use std::time::{Duration, Instant};

/// How many bytes a packet has.
const LENGTH: usize = 200;

/// Every so-manieth packet that comes is asked for again.
const AGAIN: u32 = 10;

/// How many packets of one endpoint may be under way.
const UNDER_WAY: u32 = 32;

/// The number of the first packet that each endpoint is sent.
const FIRST: u16 = 65_500;

fn wrong(what: String) -> io::Error {
    io::Error::other(what)
}

/// The packet of this place in what a source sends, under this sequence number (RFC 3550, section 5.1).
fn packet(place: u32, number: u16, source: u8) -> [u8; LENGTH] {
    let mut bytes = [0x5a; LENGTH];
    let [a, b, c, d] = place.to_be_bytes();
    let [high, low] = number.to_be_bytes();
    bytes[..16].copy_from_slice(&[0x80, 96, high, low, a, b, c, d, 0, 0, 0, source, a, b, c, d]);
    bytes
}

/// An endpoint.
struct Peer {
    socket: UdpSocket,
    unit: SocketAddr,
    /// Its own source, and that of what it is sent.
    own: u8,
    from: u8,
    sent: u32,
    /// How many packets came to it for the first time, and how many again.
    come: u32,
    again: u32,
    /// What it asked for and didn't get yet, by its number.
    asked: HashMap<u16, Vec<u8>>,
}

impl Peer {
    fn new(socket: UdpSocket, unit: SocketAddr, own: u8, from: u8) -> io::Result<Peer> {
        socket.set_read_timeout(Some(Duration::from_secs(5)))?;
        socket.send_to(&[0x80, 201, 0, 1, 0, 0, 0, own], unit)?;
        Ok(Peer { socket, unit, own, from, sent: 0, come: 0, again: 0, asked: HashMap::new() })
    }

    fn send(&mut self) -> io::Result<()> {
        self.socket.send_to(&packet(self.sent, self.sent as u16, self.own), self.unit)?;
        self.sent += 1;
        Ok(())
    }

    /// Takes the next datagram.
    fn take(&mut self) -> io::Result<()> {
        let mut buffer = [0; 2048];
        let (length, _) = self.socket.recv_from(&mut buffer).map_err(|error| {
            wrong(format!("packet {} and {} of {} asked for again: {error}", self.come, self.asked.len(), self.own))
        })?;
        let come = &buffer[..length];
        let number = FIRST.wrapping_add(self.come as u16);
        if come == packet(self.come, number, self.from) {
            self.come += 1;
            if self.come % AGAIN == 0 {
                self.ask(number, come)?;
            }
            return Ok(());
        }
        let number = u16::from_be_bytes([come[2], come[3]]);
        match self.asked.remove(&number) {
            Some(before) if before == come => self.again += 1,
            _ => return Err(wrong(format!("number {number} came to {}, where {} was due", self.own, self.come))),
        }
        Ok(())
    }

    /// Asks for a packet again, by a NACK (RFC 4585, section 6.2.1).
    fn ask(&mut self, number: u16, come: &[u8]) -> io::Result<()> {
        let [high, low] = number.to_be_bytes();
        let nack = [0x81, 205, 0, 3, 0, 0, 0, self.own, 0, 0, 0, self.from, high, low, 0, 0];
        self.asked.insert(number, come.to_vec());
        self.socket.send_to(&nack, self.unit)?;
        Ok(())
    }
}

/// Has both send so many packets, with no more than `UNDER_WAY` under way, and take all that they should get.
fn exchange(first: &mut Peer, second: &mut Peer, each: u32) -> io::Result<()> {
    for _ in 0..each {
        first.send()?;
        second.send()?;
        while first.sent - second.come >= UNDER_WAY {
            second.take()?;
        }
        while second.sent - first.come >= UNDER_WAY {
            first.take()?;
        }
    }
    for peer in [first, second] {
        while peer.come < each || !peer.asked.is_empty() {
            peer.take()?;
        }
    }
    Ok(())
}

/// The lines of counts that the program writes, from the next one on, until one says that it heard so many datagrams.
fn counts(said: &mut impl BufRead, heard: u32) -> io::Result<String> {
    let begin = format!("present 2 heard {heard} ");
    let end = Instant::now() + Duration::from_secs(10);
    let mut line = String::new();
    while Instant::now() < end {
        line.clear();
        said.read_line(&mut line)?;
        if line.starts_with(&begin) {
            break;
        }
    }
    Ok(line.trim().to_string())
}

/// What the system dropped on UDP sockets so far for want of room, of either version.
fn dropped() -> io::Result<u64> {
    let six = fs::read_to_string("/proc/net/snmp6")?;
    let line = six.lines().find_map(|line| line.strip_prefix("Udp6RcvbufErrors"));
    let mut count = line.map_or(0, |word| word.trim().parse().unwrap_or(0));
    let four = fs::read_to_string("/proc/net/snmp")?;
    let mut lines = four.lines().filter_map(|line| line.strip_prefix("Udp: "));
    if let (Some(names), Some(numbers)) = (lines.next(), lines.next()) {
        let mut both = names.split(' ').zip(numbers.split(' '));
        count += both.find(|(name, _)| *name == "RcvbufErrors").map_or(0, |(_, word)| word.parse().unwrap_or(0));
    }
    Ok(count)
}

/// The settings of a unit that sends each endpoint what the other publishes.
fn settings(unit: SocketAddr, first: &UdpSocket, second: &UdpSocket) -> io::Result<String> {
    let (first, second) = (first.local_addr()?, second.local_addr()?);
    Ok(format!(
        "workers = 2\nring = 512\nhistory = 1024\ntimeout_ms = 86400000\nreport_ms = 86400000\npli_gap_ms = 500\nunit_ssrc = 9\n\
         cname = \"sfu\"\nlisten = \"{unit}\"\n[[endpoint]]\nssrc = 16\naddress = \"{first}\"\n[[endpoint]]\nssrc = 17\n\
         address = \"{second}\"\n[[leg]]\nsubscriber = 0\npublisher = 1\nout_ssrc = 129\nfirst_seq = {FIRST}\n[[leg]]\n\
         subscriber = 1\npublisher = 0\nout_ssrc = 130\nfirst_seq = {FIRST}\n"
    ))
}

/// Starts the program, and waits until it is bound.
fn start(sfu: &str, file: &str) -> io::Result<(Child, BufReader<impl Read>)> {
    let mut words = Command::new(sfu);
    let mut program = words.args(["serve", file, "--status", "1"]).stderr(Stdio::piped()).spawn()?;
    let mut said = BufReader::new(program.stderr.take().ok_or_else(|| wrong("no error output".into()))?);
    let mut line = String::new();
    said.read_line(&mut line)?;
    if !line.starts_with("serving ") {
        return Err(wrong(format!("the program said {line:?}")));
    }
    Ok((program, said))
}

fn main() -> io::Result<()> {
    let words: Vec<String> = env::args().skip(1).collect();
    let [packets, address, sfu] = words.as_slice() else {
        return Err(wrong("exchange PACKETS ADDRESS SFU".into()));
    };
    let each = packets.parse::<u32>().map_err(|_| wrong(format!("{packets} is no number")))? / 2;
    let address: IpAddr = address.parse().map_err(|_| wrong(format!("{address} is no address")))?;
    // A port that was free a moment ago.
    let unit = UdpSocket::bind((address, 0))?.local_addr()?;
    let (first, second) = (UdpSocket::bind((address, 0))?, UdpSocket::bind((address, 0))?);
    let file = env::temp_dir().join(format!("sfu_exchange_{}.toml", std::process::id()));
    fs::write(&file, settings(unit, &first, &second)?)?;
    let before = dropped()?;
    let (mut program, mut said) = start(sfu, &file.display().to_string())?;
    let begin = Instant::now();
    let (mut first, mut second) = (Peer::new(first, unit, 16, 129)?, Peer::new(second, unit, 17, 130)?);
    let ended = exchange(&mut first, &mut second, each);
    let took = begin.elapsed();
    let again = first.again + second.again;
    println!("{} packets sent, {} came, {again} came again, in {took:.1?}", first.sent + second.sent, first.come + second.come);
    println!("dropped by the system for want of room, on any socket: {}", dropped()? - before);
    let heard = 2 + 2 * (each + each / AGAIN);
    let line = counts(&mut said, heard)?;
    println!("{line}");
    program.kill()?;
    program.wait()?;
    fs::remove_file(&file)?;
    ended?;
    let wanted = format!("present 2 heard {heard} sent {} failed 0 lost 0 strangers 0 far 0 unread 0", heard - 2);
    if line != wanted {
        return Err(wrong(format!("the counts should have been: {wanted}")));
    }
    Ok(())
}
