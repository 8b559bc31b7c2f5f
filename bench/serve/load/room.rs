//! Who takes part in a conference, and what is sent on to whom.

use std::net::SocketAddr;

/// The source of endpoint 0; each further endpoint has the next one.
pub const SOURCE: u32 = 16;

/// The source of what is sent on leg 0; each further leg has the next one.
pub const OUT_SOURCE: u32 = 4_096;

/// So many milliseconds that no run lasts as long.
const NEVER_MS: u32 = 86_400_000;

/// A room: each of the first endpoints publishes to so many endpoints after it, round the end; the others are only present.
#[derive(Clone, Copy)]
pub struct Room {
    pub endpoints: usize,
    pub publishers: usize,
    /// How many each publisher has.
    pub subscribers: usize,
    pub workers: usize,
    /// How many packets each leg keeps.
    pub ring: usize,
    pub report_ms: u32,
    /// 1: reports go out all at once, and the settings don't say so.
    pub report_slots: u32,
    /// 0: requests don't age.
    pub request_ms: u32,
}

impl Room {
    /// With one worker and full rings, and without reports.
    pub fn new(endpoints: usize, publishers: usize, subscribers: usize) -> Room {
        Room { endpoints, publishers, subscribers, workers: 1, ring: 512, report_ms: NEVER_MS, report_slots: 1, request_ms: 0 }
    }

    /// With as many endpoints and legs as there may be, 256 and 4,096, and rings of 8.
    pub fn full() -> Room {
        Room { ring: 8, ..Room::new(256, 256, 16) }
    }

    /// The leg's subscriber.
    pub fn subscriber(&self, leg: usize) -> usize {
        (leg / self.subscribers + 1 + leg % self.subscribers) % self.endpoints
    }

    /// The settings of a unit that listens here and whose endpoints have these addresses.
    pub fn settings(&self, listen: SocketAddr, addresses: &[SocketAddr]) -> String {
        let Room { subscribers, workers, ring, report_ms, request_ms, .. } = self;
        let mut text = format!(
            "workers = {workers}\nring = {ring}\nhistory = 1024\ntimeout_ms = {NEVER_MS}\nreport_ms = {report_ms}\n\
             request_ms = {request_ms}\npli_gap_ms = 500\nunit_ssrc = 9\ncname = \"sfu\"\nlisten = \"{listen}\"\n"
        );
        if self.report_slots > 1 {
            text.insert_str(0, &format!("report_slots = {}\n", self.report_slots));
        }
        for (address, source) in addresses.iter().zip(SOURCE..) {
            text += &format!("[[endpoint]]\nssrc = {source}\naddress = \"{address}\"\n");
        }
        for (leg, source) in (0..self.publishers * subscribers).zip(OUT_SOURCE..) {
            let (subscriber, publisher) = (self.subscriber(leg), leg / subscribers);
            text += &format!("[[leg]]\nsubscriber = {subscriber}\npublisher = {publisher}\nout_ssrc = {source}\n");
        }
        text
    }
}
