//! One conference of a selective forwarding unit for RTP: libsfu without pointers.
//!
//! ```no_run
//! # fn send(_: u32, _: &[u8]) {}
//! # fn main() -> Result<(), Box<dyn std::error::Error>> {
//! let mut room = sfu::Conference::open(&std::fs::read("room.toml")?)?;
//! room.hear(0, 0, &[0x80, 0xc9, 0, 1, 0, 0, 0, 16])?;
//! let mut buffer = [0; 2048];
//! while let Some(next) = room.next_out(&mut buffer)? {
//!     send(next.endpoint, next.bytes);
//! }
//! # Ok(())
//! # }
//! ```
//!
//! What the calls do stands in `sfu.h`. What that header leaves to its caller is seen to here: a `Conference` is open from its making
//! to its drop, has one owner, stays on its thread, and each slice is as long as it says.
use std::error::Error;
use std::fmt;
use std::marker::PhantomData;

mod ffi;

/// Why nothing was done, or not all of it.
#[derive(Clone, Copy, Debug, PartialEq, Eq)]
pub enum Fault {
    /// There was no memory; nothing was done.
    NoMemory,
    /// The text is no TOML document.
    NotToml,
    /// A key of the settings isn't there, isn't known, or has a value of another kind or beyond its range.
    BadKey,
    /// Such a key of the endpoint of this number.
    BadEndpoint(u64),
    /// Such a key of the leg of this number.
    BadLeg(u64),
    /// Two of the unit, the endpoints and the legs have one source.
    SameSsrc,
    /// The settings have so many workers, and not one.
    Workers(u64),
    /// Something waits since an earlier call met no memory; nothing was done.
    Busy,
    /// What was asked was done; the rest of what follows waits for `settle`.
    Unsettled,
    /// There is no room for so many bytes, or so many requests.
    NoRoom(usize),
    /// There is no endpoint of this number.
    NoEndpoint,
    /// A number that the library of this header doesn't answer.
    Unknown(u32),
}

impl fmt::Display for Fault {
    fn fmt(&self, f: &mut fmt::Formatter<'_>) -> fmt::Result {
        match self {
            Fault::NoMemory => f.write_str("no memory"),
            Fault::NotToml => f.write_str("settings: no TOML document"),
            Fault::BadKey => f.write_str("settings: a key"),
            Fault::BadEndpoint(number) => write!(f, "settings: a key of endpoint {number}"),
            Fault::BadLeg(number) => write!(f, "settings: a key of leg {number}"),
            Fault::SameSsrc => f.write_str("settings: one source twice"),
            Fault::Workers(count) => write!(f, "settings: {count} workers, and not one"),
            Fault::Busy => f.write_str("something waits"),
            Fault::Unsettled => f.write_str("no memory for all that follows"),
            Fault::NoRoom(size) => write!(f, "no room for {size}"),
            Fault::NoEndpoint => f.write_str("no such endpoint"),
            Fault::Unknown(number) => write!(f, "fault {number}"),
        }
    }
}

impl Error for Fault {}

/// `Ok` for what was done, else the fault of this number; `told` is the number that the answer tells beside it.
fn done(fault: u32, told: u64) -> Result<(), Fault> {
    Err(match fault {
        ffi::DONE => return Ok(()),
        ffi::NO_MEMORY => Fault::NoMemory,
        ffi::NOT_TOML => Fault::NotToml,
        ffi::BAD_KEY => Fault::BadKey,
        ffi::BAD_ENDPOINT => Fault::BadEndpoint(told),
        ffi::BAD_LEG => Fault::BadLeg(told),
        ffi::SAME_SSRC => Fault::SameSsrc,
        ffi::WORKERS => Fault::Workers(told),
        ffi::BUSY => Fault::Busy,
        ffi::UNSETTLED => Fault::Unsettled,
        ffi::NO_ROOM => Fault::NoRoom(told as usize),
        ffi::NO_ENDPOINT => Fault::NoEndpoint,
        other => Fault::Unknown(other),
    })
}

/// A datagram to be sent.
#[derive(Clone, Copy, Debug, PartialEq, Eq)]
pub struct Next<'a> {
    /// The number of the endpoint that it goes to.
    pub endpoint: u32,
    pub bytes: &'a [u8],
}

/// A rate request by the parts of its word (RFC 5104, section 4.2.1.1), and the entries of a certificate.
pub use ffi::{Implied, Kept, Request};

/// The requests that are live for an endpoint's media, with the certificate of what is announced for it: its places count these.
#[derive(Clone, Debug, Default, PartialEq, Eq)]
pub struct Certified {
    /// By rising SSRC.
    pub live: Vec<Request>,
    /// By rising overhead: those that are announced.
    pub kept: Vec<Kept>,
    /// By rising place: the others.
    pub implied: Vec<Implied>,
}

/// What waits since a call met no memory.
#[derive(Clone, Copy, Debug, Default, PartialEq, Eq)]
pub struct Waiting {
    /// Tasks of the ingress, with the notification that waits.
    pub tasks: usize,
    /// Jobs in the worker's ring.
    pub jobs: usize,
    /// 1 if the worker has something in hand.
    pub hands: usize,
}

/// An open conference.
#[derive(Debug)]
pub struct Conference {
    slot: ffi::Slot,
    /// It stays on its thread.
    here: PhantomData<*mut ()>,
}

impl Conference {
    /// The conference of these settings, which have one worker, as `sfu replay` reads them.
    pub fn open(text: &[u8]) -> Result<Conference, Fault> {
        let mut conference = Conference { slot: ffi::Slot::closed(), here: PhantomData };
        let opened = unsafe { ffi::sfu_open(&mut conference.slot, text.as_ptr(), text.len()) };
        done(opened.fault, opened.number)?;
        Ok(conference)
    }

    /// A datagram came from the endpoint at this moment, in milliseconds.
    pub fn hear(&mut self, moment: u64, endpoint: u16, bytes: &[u8]) -> Result<(), Fault> {
        done(unsafe { ffi::sfu_hear(&mut self.slot, moment, endpoint, bytes.as_ptr(), bytes.len()) }, 0)
    }

    /// It is this moment, in milliseconds.
    pub fn tick(&mut self, moment: u64) -> Result<(), Fault> {
        done(unsafe { ffi::sfu_tick(&mut self.slot, moment) }, 0)
    }

    /// The leg is selected from this moment on, or not.
    pub fn select(&mut self, moment: u64, leg: u16, on: bool) -> Result<(), Fault> {
        done(unsafe { ffi::sfu_select(&mut self.slot, moment, leg, on) }, 0)
    }

    /// What waits since a call met no memory is done.
    pub fn settle(&mut self) -> Result<(), Fault> {
        done(unsafe { ffi::sfu_settle(&mut self.slot) }, 0)
    }

    /// The datagram that is to be sent next, in this buffer; the next call gives the one after it. With `NoRoom` it is still the next.
    pub fn next_out<'a>(&mut self, room: &'a mut [u8]) -> Result<Option<Next<'a>>, Fault> {
        let next = unsafe { ffi::sfu_next_out(&mut self.slot, room.as_mut_ptr(), room.len()) };
        if next.fault == ffi::NOTHING {
            return Ok(None);
        }
        done(next.fault, next.size as u64)?;
        Ok(Some(Next { endpoint: next.endpoint, bytes: &room[..next.size] }))
    }

    /// What is announced for the endpoint's media, by rising overhead.
    pub fn announced(&mut self, endpoint: u16) -> Result<Vec<Request>, Fault> {
        let mut room = vec![Request::default(); ffi::MAX_REQUESTS];
        let set = unsafe { ffi::sfu_announced(&mut self.slot, endpoint, room.as_mut_ptr(), room.len()) };
        done(set.fault, set.count as u64)?;
        room.truncate(set.count);
        Ok(room)
    }

    /// What is live for the endpoint's media, and the certificate of what is announced for it.
    pub fn certified(&mut self, endpoint: u16) -> Result<Certified, Fault> {
        let mut live = vec![Request::default(); ffi::MAX_REQUESTS];
        let mut kept = vec![Kept::default(); ffi::MAX_REQUESTS];
        let mut implied = vec![Implied::default(); ffi::MAX_REQUESTS];
        let told = unsafe {
            ffi::sfu_certified(
                &mut self.slot,
                endpoint,
                live.as_mut_ptr(),
                live.len(),
                kept.as_mut_ptr(),
                kept.len(),
                implied.as_mut_ptr(),
                implied.len(),
            )
        };
        done(told.fault, told.live as u64)?;
        live.truncate(told.live);
        kept.truncate(told.kept);
        implied.truncate(told.implied);
        Ok(Certified { live, kept, implied })
    }

    /// How many entries of feedback were passed over, since their datagrams had more than the settings' `entry_limit`.
    pub fn beyond(&mut self) -> u64 {
        unsafe { ffi::sfu_beyond(&mut self.slot) }.entries
    }

    /// What waits.
    pub fn waiting(&mut self) -> Waiting {
        let wait = unsafe { ffi::sfu_waiting(&mut self.slot) };
        Waiting { tasks: wait.tasks, jobs: wait.jobs, hands: wait.hands }
    }
}

impl Drop for Conference {
    fn drop(&mut self) {
        // (of a slot that isn't open, as after a text that is refused, it says so and does nothing)
        unsafe { ffi::sfu_close(&mut self.slot) };
    }
}
