//! As sfu.h has them.
use std::ffi::c_void;
use std::ptr;

pub const DONE: u32 = 0;
pub const NO_MEMORY: u32 = 3;
pub const NOT_TOML: u32 = 4;
pub const BAD_KEY: u32 = 5;
pub const BAD_ENDPOINT: u32 = 6;
pub const BAD_LEG: u32 = 7;
pub const SAME_SSRC: u32 = 8;
pub const WORKERS: u32 = 9;
pub const BUSY: u32 = 10;
pub const UNSETTLED: u32 = 11;
pub const NOTHING: u32 = 12;
pub const NO_ROOM: u32 = 13;
pub const NO_ENDPOINT: u32 = 14;
pub const MAX_REQUESTS: usize = 256;

#[repr(C)]
#[derive(Debug)]
pub struct Slot {
    is_open: u32,
    at: *mut c_void,
}

impl Slot {
    pub const fn closed() -> Slot {
        Slot { is_open: 0, at: ptr::null_mut() }
    }
}

#[repr(C)]
pub struct Opened {
    pub fault: u32,
    pub number: u64,
}

#[repr(C)]
pub struct NextOut {
    pub fault: u32,
    pub endpoint: u32,
    pub size: usize,
}

/// A rate request by the parts of its word: the rate is `mantissa * 2^exponent` bits per second.
#[repr(C)]
#[derive(Clone, Copy, Debug, Default, PartialEq, Eq)]
pub struct Request {
    /// The owner, the receiver that asks.
    pub ssrc: u32,
    /// 0 to 63.
    pub exponent: u32,
    /// 0 to 131071; 0 asks for no media at all.
    pub mantissa: u32,
    /// Bytes of header per packet, 0 to 511.
    pub overhead: u32,
}

#[repr(C)]
pub struct Set {
    pub fault: u32,
    pub count: usize,
}

/// An entry of a certificate for a request that is announced.
#[repr(C)]
#[derive(Clone, Copy, Debug, Default, PartialEq, Eq)]
pub struct Kept {
    packets_high: u64,
    packets_low: u64,
    bits_high: u64,
    bits_low: u64,
    /// The seconds of the pair that it forbids and every other announced request permits.
    pub seconds: u32,
    /// The request's place among the live ones, from 0.
    pub place: u32,
}

impl Kept {
    /// The packets of the pair.
    pub fn packets(&self) -> u128 {
        u128::from(self.packets_high) << 64 | u128::from(self.packets_low)
    }

    /// The bits of net media of the pair.
    pub fn bits(&self) -> u128 {
        u128::from(self.bits_high) << 64 | u128::from(self.bits_low)
    }
}

/// An entry for a request that isn't announced: `p` times the one at `a` and `q` times the one at `b` are as strict as `r` times it.
#[repr(C)]
#[derive(Clone, Copy, Debug, Default, PartialEq, Eq)]
pub struct Implied {
    /// The request's place among the live ones, from 0.
    pub place: u32,
    pub a: u32,
    pub b: u32,
    pub p: u32,
    pub q: u32,
    pub r: u32,
}

#[repr(C)]
pub struct Certificate {
    pub fault: u32,
    pub live: usize,
    pub kept: usize,
    pub implied: usize,
}

#[repr(C)]
pub struct Entries {
    pub fault: u32,
    pub entries: u64,
}

#[repr(C)]
pub struct Wait {
    pub fault: u32,
    pub tasks: usize,
    pub jobs: usize,
    pub hands: usize,
}

extern "C" {
    pub fn sfu_open(conference: *mut Slot, text: *const u8, text_size: usize) -> Opened;
    pub fn sfu_hear(conference: *mut Slot, moment: u64, endpoint: u16, bytes: *const u8, bytes_size: usize) -> u32;
    pub fn sfu_tick(conference: *mut Slot, moment: u64) -> u32;
    pub fn sfu_select(conference: *mut Slot, moment: u64, leg: u16, on: bool) -> u32;
    pub fn sfu_settle(conference: *mut Slot) -> u32;
    pub fn sfu_next_out(conference: *mut Slot, room: *mut u8, room_size: usize) -> NextOut;
    pub fn sfu_announced(conference: *mut Slot, endpoint: u16, room: *mut Request, room_size: usize) -> Set;
    pub fn sfu_certified(
        conference: *mut Slot,
        endpoint: u16,
        live: *mut Request,
        live_room: usize,
        kept: *mut Kept,
        kept_room: usize,
        implied: *mut Implied,
        implied_room: usize,
    ) -> Certificate;
    pub fn sfu_beyond(conference: *mut Slot) -> Entries;
    pub fn sfu_waiting(conference: *mut Slot) -> Wait;
    pub fn sfu_close(conference: *mut Slot) -> u32;
}
