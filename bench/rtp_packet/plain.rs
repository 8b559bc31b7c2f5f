//! The same work as `main.rattle`, in plain Rust.

use std::env;
use std::time::Instant;

/// Version 2, padding, an extension of one word, two CSRCs, the marker bit, payload type 96.
const FRONT: [u8; 28] = [
    0xb2, 0xe0, 0x00, 0x07, 0x00, 0x00, 0x0b, 0xb8, 0x00, 0x00, 0x00, 0x11, // the fixed header
    0, 0, 0, 1, 0, 0, 0, 2, // the CSRCs
    0xbe, 0xde, 0, 1, 0x10, 0x20, 0x30, 0x40, // the extension
];

const HEADER: usize = 12;
const WORD: usize = 4;

#[derive(Debug)]
enum Fault {
    Short,
    Version,
    CsrcShort,
    ExtensionShort,
    Padding,
    Room,
}

struct Extension<'a> {
    profile: u16,
    words: &'a [u8],
}

struct View<'a> {
    datagram: &'a [u8],
    marker: bool,
    payload_type: u8,
    sequence_number: u16,
    timestamp: u32,
    #[allow(dead_code)]
    ssrc: u32,
    csrcs: &'a [u8],
    extension: Option<Extension<'a>>,
    payload: &'a [u8],
    padding: &'a [u8],
}

fn read_u16(bytes: &[u8]) -> u16 {
    u16::from_be_bytes([bytes[0], bytes[1]])
}

fn read_u32(bytes: &[u8]) -> u32 {
    u32::from_be_bytes([bytes[0], bytes[1], bytes[2], bytes[3]])
}

impl<'a> View<'a> {
    fn parse(datagram: &'a [u8]) -> Result<View<'a>, Fault> {
        if datagram.len() < HEADER {
            return Err(Fault::Short);
        }
        let (first, second) = (datagram[0], datagram[1]);
        if first >> 6 != 2 {
            return Err(Fault::Version);
        }
        let rest = &datagram[HEADER..];
        let count = WORD * usize::from(first & 0x0f);
        if rest.len() < count {
            return Err(Fault::CsrcShort);
        }
        let (csrcs, rest) = rest.split_at(count);
        let (extension, rest) = if (first >> 4) & 1 == 1 {
            if rest.len() < WORD {
                return Err(Fault::ExtensionShort);
            }
            let profile = read_u16(rest);
            let count = WORD * usize::from(read_u16(&rest[2..]));
            let behind = &rest[WORD..];
            if behind.len() < count {
                return Err(Fault::ExtensionShort);
            }
            let (words, rest) = behind.split_at(count);
            (Some(Extension { profile, words }), rest)
        } else {
            (None, rest)
        };
        let (payload, padding) = if (first >> 5) & 1 == 1 {
            let count = usize::from(*rest.last().ok_or(Fault::Padding)?);
            if count == 0 || rest.len() < count {
                return Err(Fault::Padding);
            }
            rest.split_at(rest.len() - count)
        } else {
            (rest, &[][..])
        };
        Ok(View {
            datagram,
            marker: second >> 7 == 1,
            payload_type: second & 0x7f,
            sequence_number: read_u16(&datagram[2..]),
            timestamp: read_u32(&datagram[4..]),
            ssrc: read_u32(&datagram[8..]),
            csrcs,
            extension,
            payload,
            padding,
        })
    }

    fn rewritten_into(&self, ssrc: u32, sequence_number: u16, out: &mut [u8]) -> Result<usize, Fault> {
        let size = self.datagram.len();
        if out.len() < size {
            return Err(Fault::Room);
        }
        out[..size].copy_from_slice(self.datagram);
        out[2..4].copy_from_slice(&sequence_number.to_be_bytes());
        out[8..12].copy_from_slice(&ssrc.to_be_bytes());
        Ok(size)
    }
}

/// A datagram: `FRONT`, a payload, and three bytes of padding.
fn datagram(size: usize) -> Vec<u8> {
    let mut bytes = FRONT.to_vec();
    for _ in FRONT.len() + 1..size {
        bytes.push(0x61);
    }
    bytes.push(3);
    bytes
}

/// What was read of a packet, in one number, so that nothing of it can be left out.
fn digest(view: &View) -> u64 {
    let profile = match &view.extension {
        Some(extension) => u64::from(extension.profile).wrapping_add(extension.words.len() as u64),
        None => 0,
    };
    u64::from(view.timestamp)
        .wrapping_add(u64::from(view.payload_type))
        .wrapping_add(u64::from(view.marker))
        .wrapping_add(view.csrcs.len() as u64)
        .wrapping_add(view.payload.len() as u64)
        .wrapping_add(view.padding.len() as u64)
        .wrapping_add(profile)
}

/// Reads the packet in `from` and writes it to `to` with the next sequence number, under an SSRC that
/// hangs on all that was read so far.
fn pass_on(from: &[u8], to: &mut [u8], sum: u64) -> Result<u64, Fault> {
    let view = View::parse(from)?;
    let sum = sum.wrapping_add(digest(&view));
    let size = view.rewritten_into(sum as u32, view.sequence_number.wrapping_add(1), to)?;
    Ok(sum.wrapping_add(size as u64))
}

/// Passes the packet to and fro between two buffers, twice in each round.
fn pass_to_and_fro(here: &mut [u8], there: &mut [u8], rounds: u64) -> Result<u64, Fault> {
    let mut sum = 0;
    for _ in 0..rounds {
        sum = pass_on(here, there, sum)?;
        sum = pass_on(there, here, sum)?;
    }
    Ok(here.iter().fold(sum, |sum, byte| sum.wrapping_add(u64::from(*byte))))
}

/// The number that an argument is, or 1.
fn number(words: &[String], place: usize) -> u64 {
    words.get(place).and_then(|word| word.parse().ok()).unwrap_or(1)
}

fn main() {
    let words: Vec<String> = env::args().collect();
    let rounds = number(&words, 1);
    let size = number(&words, 2) as usize;
    let mut here = datagram(size);
    let mut there = datagram(size);
    let start = Instant::now();
    let answer = pass_to_and_fro(&mut here, &mut there, rounds);
    let took = start.elapsed();
    match answer {
        Ok(sum) => println!("{} {sum}", took.as_nanos()),
        Err(fault) => println!("{fault:?}"),
    }
}
