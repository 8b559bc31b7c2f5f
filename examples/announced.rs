//! The same as announced.c from Rust: the set for the requests of three receivers, with its certificate checked.
//!
//!     rustc -O announced.rs -l static=tmmbr -L DIRECTORY && ./announced
use std::fmt;

/// As tmmbr.h has them.
mod tmmbr {
    pub const DONE: u32 = 0;

    #[repr(C)]
    #[derive(Clone, Copy, Default)]
    pub struct Request {
        pub ssrc: u32,
        pub exponent: u32,
        pub mantissa: u32,
        pub overhead: u32,
    }

    #[repr(C)]
    #[derive(Clone, Copy, Default)]
    pub struct Kept {
        pub packets_high: u64,
        pub packets_low: u64,
        pub bits_high: u64,
        pub bits_low: u64,
        pub seconds: u32,
        pub place: u32,
    }

    #[repr(C)]
    #[derive(Clone, Copy, Default)]
    pub struct Implied {
        pub place: u32,
        pub a: u32,
        pub b: u32,
        pub p: u32,
        pub q: u32,
        pub r: u32,
    }

    #[repr(C)]
    #[derive(Clone, Copy, Debug)]
    pub struct Answer {
        pub fault: u32,
        pub place: u32,
        pub kept: u32,
        pub implied: u32,
    }

    #[repr(C)]
    #[derive(Clone, Copy, Debug)]
    pub struct Verdict {
        pub fault: u32,
        pub place: u32,
    }

    extern "C" {
        fn tmmbr_announced(
            asked: *const Request,
            asked_count: usize,
            kept: *mut Kept,
            kept_room: usize,
            implied: *mut Implied,
            implied_room: usize,
        ) -> Answer;
        fn tmmbr_check(
            asked: *const Request,
            asked_count: usize,
            kept: *const Kept,
            kept_count: usize,
            implied: *const Implied,
            implied_count: usize,
        ) -> Verdict;
    }

    /// The entries of the certificate, or the answer that refuses the requests.
    pub fn announced(asked: &[Request]) -> Result<(Vec<Kept>, Vec<Implied>), Answer> {
        let mut kept = vec![Kept::default(); asked.len()];
        let mut implied = vec![Implied::default(); asked.len()];
        // A slice is never null and is aligned; these don't overlap, and have as many elements as is said.
        let answer = unsafe {
            tmmbr_announced(
                asked.as_ptr(),
                asked.len(),
                kept.as_mut_ptr(),
                kept.len(),
                implied.as_mut_ptr(),
                implied.len(),
            )
        };
        if answer.fault != DONE {
            return Err(answer);
        }
        kept.truncate(answer.kept as usize);
        implied.truncate(answer.implied as usize);
        Ok((kept, implied))
    }

    pub fn check(asked: &[Request], kept: &[Kept], implied: &[Implied]) -> Verdict {
        // As above; nothing is written.
        unsafe {
            tmmbr_check(
                asked.as_ptr(),
                asked.len(),
                kept.as_ptr(),
                kept.len(),
                implied.as_ptr(),
                implied.len(),
            )
        }
    }
}

impl tmmbr::Request {
    fn of(ssrc: u32, word: u32) -> Self {
        tmmbr::Request {
            ssrc,
            exponent: word >> 26,
            mantissa: word >> 9 & 0x1ffff,
            overhead: word & 0x1ff,
        }
    }
}

impl fmt::Display for tmmbr::Request {
    fn fmt(&self, f: &mut fmt::Formatter) -> fmt::Result {
        let word = self.exponent << 26 | self.mantissa << 9 | self.overhead;
        write!(f, "{} {word:08x}", self.ssrc)
    }
}

fn main() {
    let asked = [(17, 0x01f4_0028), (18, 0x01d4_c014), (19, 0x01e4_601e)];
    let asked = asked.map(|(ssrc, word)| tmmbr::Request::of(ssrc, word));
    let (kept, implied) = tmmbr::announced(&asked).expect("requests in range, each of its own owner");
    for entry in &kept {
        let packets = u128::from(entry.packets_high) << 64 | u128::from(entry.packets_low);
        let bits = u128::from(entry.bits_high) << 64 | u128::from(entry.bits_low);
        let request = asked[entry.place as usize];
        println!("kept {request} pair {packets} {bits} {}", entry.seconds);
    }
    for entry in &implied {
        let [request, a, b] = [entry.place, entry.a, entry.b].map(|place| asked[place as usize]);
        println!("implied {request} by {} {} times {} {} {}", a.ssrc, b.ssrc, entry.p, entry.q, entry.r);
    }
    let verdict = tmmbr::check(&asked, &kept, &implied);
    println!("{}", if verdict.fault == tmmbr::DONE { "yes" } else { "no" });
}
