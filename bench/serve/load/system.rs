//! Calls of the system (Linux, 64 bits) and files of it that the standard library has no word for.

use std::ffi::{c_int, c_long, c_ulong};
use std::net::{SocketAddr, UdpSocket};
use std::os::fd::AsRawFd;
use std::time::Duration;
use std::{fs, io};

extern "C" {
    fn ioctl(file: c_int, request: c_ulong, ...) -> c_int;
    fn prctl(option: c_int, ...) -> c_int;
    fn kill(process: c_int, signal: c_int) -> c_int;
}

/// Asks when the last datagram came that was received, from `linux/sockios.h`.
const SIOCGSTAMPNS: c_ulong = 0x8907;

/// Sets by how much a thread's sleep may be lengthened, from `linux/prctl.h`.
const PR_SET_TIMERSLACK: c_int = 29;

/// Signals that stop a process and have it go on, from `asm-generic/signal.h`.
const SIGSTOP: c_int = 19;
const SIGCONT: c_int = 18;

/// When the datagram that was received last came to this socket, since the beginning of 1970: the moment at which whoever sent
/// it put it there, however late it was looked at. The first call has the system note such moments from then on.
pub fn arrival(socket: &UdpSocket) -> io::Result<Duration> {
    let mut moment: [c_long; 2] = [0; 2];
    // SAFETY: this request writes a `timespec`, two longs, to where the pointer says.
    if unsafe { ioctl(socket.as_raw_fd(), SIOCGSTAMPNS, moment.as_mut_ptr()) } < 0 {
        return Err(io::Error::last_os_error());
    }
    Ok(Duration::new(moment[0] as u64, moment[1] as u32))
}

/// Has this thread's sleeps end when they should, and not up to 50 microseconds later. A server must not inherit it.
pub fn sleep_sharply() {
    let one_nanosecond: c_ulong = 1;
    // SAFETY: this option takes a number and changes nothing but the thread's sleeps.
    unsafe { prctl(PR_SET_TIMERSLACK, one_nanosecond) };
}

/// Stops the process, or has it go on.
pub fn hold(process: u32, held: bool) -> io::Result<()> {
    // SAFETY: a signal to another process changes nothing in this one.
    if unsafe { kill(process as c_int, if held { SIGSTOP } else { SIGCONT }) } < 0 {
        return Err(io::Error::last_os_error());
    }
    Ok(())
}

/// The bytes that wait at sockets with this address (IPv4) to be received, and how many datagrams were dropped there.
pub fn waiting(address: SocketAddr) -> io::Result<(u64, u64)> {
    const LOCAL: usize = 1;
    const QUEUES: usize = 4;
    let (mut bytes, mut dropped) = (0, 0);
    let port = format!(":{:04X}", address.port());
    for line in fs::read_to_string("/proc/net/udp")?.lines() {
        let words: Vec<&str> = line.split_whitespace().collect();
        if words.get(LOCAL).is_some_and(|word| word.ends_with(&port)) {
            let queue = words.get(QUEUES).and_then(|word| word.split(':').nth(1));
            bytes += queue.and_then(|word| u64::from_str_radix(word, 16).ok()).unwrap_or(0);
            dropped += words.last().and_then(|word| word.parse::<u64>().ok()).unwrap_or(0);
        }
    }
    Ok((bytes, dropped))
}
