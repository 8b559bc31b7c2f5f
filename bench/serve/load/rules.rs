//! The rules of a file of settings: lines that may be left out there, of what `sfu serve` does with what comes.

use std::{fs, io};

const KEYS: [&str; 9] = [
    "new_starts",
    "strict_ssrc",
    "repeat_ms",
    "resend_gap_ms",
    "resend_share",
    "request_gap_ms",
    FLOOD_LIMIT,
    "entry_limit",
    "stall_ms",
];

const FLOOD_LIMIT: &str = "flood_limit";

/// The greatest there is, which no load reaches: datagrams are counted, and none is cut off.
const NEVER_REACHED: u32 = 1_000_000;

/// The lines of the file that say them, with a limit of floods that isn't reached.
pub fn of(file: &str) -> io::Result<String> {
    let text = fs::read_to_string(file)?;
    let mut rules = String::new();
    for line in text.lines() {
        match line.split_once('=').map(|(key, _)| key.trim()) {
            Some(FLOOD_LIMIT) => rules += &format!("{FLOOD_LIMIT} = {NEVER_REACHED}\n"),
            Some(key) if KEYS.contains(&key) => rules += &format!("{line}\n"),
            _ => {}
        }
    }
    if rules.is_empty() {
        return Err(io::Error::other(format!("{file} has no rules")));
    }
    Ok(rules)
}
