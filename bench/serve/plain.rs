//! A plain forwarding loop: it receives a datagram, writes number and source for each subscriber, and sends it there.
//!
//!     plain LISTEN to SUBSCRIBER..     whatever comes goes to each of them
//!     plain LISTEN among PEER..        what a peer sends, found by its address, goes to each other one

use std::collections::HashMap;
use std::env;
use std::io;
use std::net::{SocketAddr, UdpSocket};

/// The longest datagram in bytes.
const MAX_DATAGRAM: usize = 65_535;

/// How many bytes an RTP header has at least (RFC 3550, section 5.1).
const HEADER: usize = 12;

/// What one subscriber is sent of one publisher.
struct Leg {
    address: SocketAddr,
    source: u32,
    number: u16,
}

/// Legs to these addresses, whose sources go on from this one.
fn legs(addresses: impl Iterator<Item = SocketAddr>, first_source: u32) -> Vec<Leg> {
    addresses.zip(first_source..).map(|(address, source)| Leg { address, source, number: 0 }).collect()
}

/// Sends what comes on each of these legs. Only media are sent on: reports have types from 192 to 223 (RFC 5761, section 4).
fn send_on(socket: &UdpSocket, packet: &mut [u8], legs: &mut [Leg]) -> io::Result<()> {
    if packet.len() < HEADER || (192..224).contains(&packet[1]) {
        return Ok(());
    }
    for leg in legs {
        packet[2..4].copy_from_slice(&leg.number.to_be_bytes());
        packet[8..12].copy_from_slice(&leg.source.to_be_bytes());
        leg.number = leg.number.wrapping_add(1);
        socket.send_to(packet, leg.address)?;
    }
    Ok(())
}

fn send_to_all(socket: &UdpSocket, subscribers: &[SocketAddr], first_source: u32) -> io::Result<()> {
    let mut legs = legs(subscribers.iter().copied(), first_source);
    let mut buffer = vec![0; MAX_DATAGRAM];
    loop {
        let (length, _) = socket.recv_from(&mut buffer)?;
        send_on(socket, &mut buffer[..length], &mut legs)?;
    }
}

/// A peer's legs are to those after it, round the end.
fn send_among(socket: &UdpSocket, peers: &[SocketAddr], first_source: u32) -> io::Result<()> {
    let others = peers.len() - 1;
    let mut of_peer: HashMap<SocketAddr, Vec<Leg>> = HashMap::new();
    for ((at, peer), source) in peers.iter().enumerate().zip((first_source..).step_by(others)) {
        of_peer.insert(*peer, legs(peers.iter().copied().cycle().skip(at + 1).take(others), source));
    }
    let mut buffer = vec![0; MAX_DATAGRAM];
    loop {
        let (length, from) = socket.recv_from(&mut buffer)?;
        if let Some(legs) = of_peer.get_mut(&from) {
            send_on(socket, &mut buffer[..length], legs)?;
        }
    }
}

fn address(word: &String) -> io::Result<SocketAddr> {
    word.parse().map_err(|_| io::Error::other(format!("{word} is no address")))
}

fn main() -> io::Result<()> {
    /// The source of the first leg; each further one has the next.
    const FIRST_SOURCE: u32 = 4_096;
    let words: Vec<String> = env::args().skip(1).collect();
    let [listen, how, others @ ..] = words.as_slice() else {
        return Err(io::Error::other("plain LISTEN to|among ADDRESS.."));
    };
    let others = others.iter().map(address).collect::<io::Result<Vec<_>>>()?;
    let socket = UdpSocket::bind(address(listen)?)?;
    eprintln!("serving {}", socket.local_addr()?);
    match (how.as_str(), others.len()) {
        ("to", _) => send_to_all(&socket, &others, FIRST_SOURCE),
        ("among", 2..) => send_among(&socket, &others, FIRST_SOURCE),
        _ => Err(io::Error::other("to nobody, or neither to nor among")),
    }
}
