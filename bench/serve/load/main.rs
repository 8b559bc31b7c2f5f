//! Measures a program that serves (`sfu serve FILE`) beside a plain loop, part by part.
//!
//!     load PLAIN DEFAULT [--runs N] [--rules FILE] [PART..] [PROGRAM]
//!
//! PLAIN is the plain loop, DEFAULT the program if no other is given. A word that is no part is the program. With `--rules` it has the
//! rules of that file of settings.

mod conference;
mod cost;
mod delay;
mod figures;
mod idle;
mod memory;
mod room;
mod rtcp;
mod rules;
mod server;
mod system;
mod workers;

use server::Programs;
use std::{env, io};

/// A part: its name, how many runs it has of itself, and what measures it with so many.
type Part = (&'static str, usize, fn(&Programs, usize) -> io::Result<()>);

const PARTS: [Part; 8] = [
    ("cost", 9, cost::unpaced),
    ("paced", 9, cost::paced),
    ("audio", 5, cost::audio),
    ("rtcp", 7, rtcp::rtcp),
    ("delay", 5, delay::delay),
    ("workers", 7, workers::workers),
    ("idle", 5, idle::idle),
    ("memory", 5, memory::memory),
];

fn main() -> io::Result<()> {
    let mut words = env::args().skip(1);
    let (Some(plain), Some(unit)) = (words.next(), words.next()) else {
        return Err(io::Error::other("load PLAIN DEFAULT [--runs N] [--rules FILE] [PART..] [PROGRAM]"));
    };
    let mut programs = Programs { plain, unit, rules: String::new() };
    let (mut wanted, mut runs) = (Vec::new(), None);
    while let Some(word) = words.next() {
        if word == "--runs" {
            let count = words.next().and_then(|word| word.parse().ok()).filter(|count| *count > 0);
            runs = Some(count.ok_or_else(|| io::Error::other("how many runs?"))?);
        } else if word == "--rules" {
            programs.rules = rules::of(&words.next().ok_or_else(|| io::Error::other("the rules of which file?"))?)?;
        } else if let Some(part) = PARTS.iter().find(|(name, ..)| *name == word) {
            wanted.push(part);
        } else {
            programs.unit = word;
        }
    }
    if wanted.is_empty() {
        wanted.extend(&PARTS);
    }
    let mut ended = Ok(());
    for (name, usual, measure) in wanted {
        if let Err(error) = measure(&programs, runs.unwrap_or(*usual)) {
            println!("  {error}");
            ended = Err(io::Error::other(format!("{name} couldn't be measured")));
        }
    }
    ended
}
