//! When a worker is woken: for each packet, or once for all that the socket has. The unit's architecture with workers in plain Rust: an ingress
//! receives and puts each packet into the ring of each worker that has a subscriber of it; a worker sends it to these, and sleeps when its ring is
//! empty. A wake of who is awake is no system call.
//!
//!     rustc --edition 2021 -O wakes.rs && ./wakes
//!
//! `each`: the worker is woken after each packet. `drained`: after a packet the ingress takes what else the socket has, 32 at most, and wakes then; with
//! what std has that is two changes of the socket's mode and a receive in vain for each time. Prints the processor time of all threads of
//! the unit, for each packet that was sent, in microseconds: the least, the median and the greatest of the runs.

use std::array;
use std::cell::UnsafeCell;
use std::fs;
use std::io;
use std::net::{SocketAddr, UdpSocket};
use std::sync::atomic::{AtomicBool, AtomicU64, AtomicUsize, Ordering};
use std::sync::{Arc, Mutex};
use std::thread::{self, JoinHandle, Thread};
use std::time::{Duration, Instant};

const RING: usize = 1024;
const MOST_AT_ONCE: usize = 32;
const WORKERS: usize = 2;
const RATE: f64 = 5000.0;
const SECONDS: f64 = 1.5;
const RUNS: usize = 5;
const SIZE: usize = 1200;

type Packet = Arc<Vec<u8>>;

/// A ring with one thread at each end.
struct Ring {
    places: [UnsafeCell<Option<Packet>>; RING],
    taken: AtomicUsize,
    put: AtomicUsize,
    is_stopped: AtomicBool,
}

// One thread puts and one takes: a place is the one's or the other's, as the counts say.
unsafe impl Sync for Ring {}

impl Ring {
    fn new() -> Ring {
        Ring {
            places: array::from_fn(|_| UnsafeCell::new(None)),
            taken: AtomicUsize::new(0),
            put: AtomicUsize::new(0),
            is_stopped: AtomicBool::new(false),
        }
    }

    fn push(&self, packet: Packet) {
        let put = self.put.load(Ordering::Relaxed);
        if put - self.taken.load(Ordering::Acquire) < RING {
            unsafe { *self.places[put % RING].get() = Some(packet) };
            self.put.store(put + 1, Ordering::Release);
        }
    }

    fn pop(&self) -> Option<Packet> {
        let taken = self.taken.load(Ordering::Relaxed);
        if taken == self.put.load(Ordering::Acquire) {
            return None;
        }
        let packet = unsafe { (*self.places[taken % RING].get()).take() };
        self.taken.store(taken + 1, Ordering::Release);
        packet
    }
}

/// A worker that has a subscriber.
struct Lane {
    ring: Arc<Ring>,
    thread: Thread,
    join: JoinHandle<()>,
}

/// What all threads of the unit share.
struct Unit {
    socket: UdpSocket,
    sent: AtomicU64,
    is_stopped: AtomicBool,
    threads: Mutex<Vec<String>>,
}

impl Unit {
    fn note_thread(&self) {
        if let Ok(name) = fs::read_link("/proc/thread-self") {
            self.threads.lock().unwrap().push(format!("/proc/{}/schedstat", name.display()));
        }
    }

    /// Nanoseconds that its threads took.
    fn processor_time(&self) -> u64 {
        let threads = self.threads.lock().unwrap();
        let taken = |path: &String| -> Option<u64> { fs::read_to_string(path).ok()?.split(' ').next()?.parse().ok() };
        threads.iter().filter_map(taken).sum()
    }

    fn work(&self, ring: &Ring, subscribers: &[SocketAddr]) {
        let mut out = [0; SIZE];
        loop {
            match ring.pop() {
                Some(packet) => {
                    for subscriber in subscribers {
                        out[..packet.len()].copy_from_slice(&packet);
                        out[2] = 7;
                        let _ = self.socket.send_to(&out[..packet.len()], subscriber);
                        self.sent.fetch_add(1, Ordering::Relaxed);
                    }
                }
                None if ring.is_stopped.load(Ordering::Acquire) => return,
                None => thread::park_timeout(Duration::from_secs(1)),
            }
        }
    }

    fn take_in(&self, lanes: &[(Arc<Ring>, Thread)], is_drained: bool) -> io::Result<()> {
        self.socket.set_read_timeout(Some(Duration::from_millis(10)))?;
        let mut buffer = [0; 65_535];
        let (mut waiting, mut is_eager) = (0, false);
        while !self.is_stopped.load(Ordering::Relaxed) {
            let received = self.socket.recv_from(&mut buffer);
            if let Ok((length, _)) = received {
                let packet = Arc::new(buffer[..length].to_vec());
                lanes.iter().for_each(|(ring, _)| ring.push(packet.clone()));
                waiting += 1;
            }
            if waiting > 0 && (!is_drained || received.is_err() || waiting == MOST_AT_ONCE) {
                lanes.iter().for_each(|(_, thread)| thread.unpark());
                waiting = 0;
            }
            if is_drained && is_eager != received.is_ok() {
                is_eager = received.is_ok();
                self.socket.set_nonblocking(is_eager)?;
            }
        }
        Ok(())
    }
}

/// What a packet costs that is sent, in microseconds.
fn cost(is_drained: bool, subscribers: usize, burst: u32) -> io::Result<f64> {
    let unit = Arc::new(Unit {
        socket: UdpSocket::bind("127.0.0.1:0")?,
        sent: AtomicU64::new(0),
        is_stopped: AtomicBool::new(false),
        threads: Mutex::new(Vec::new()),
    });
    let address = unit.socket.local_addr()?;
    let mut receivers = Vec::new();
    for _ in 0..subscribers {
        let receiver = UdpSocket::bind("127.0.0.1:0")?;
        receiver.set_nonblocking(true)?;
        receivers.push(receiver);
    }
    let mut lanes = Vec::new();
    for worker in 0..WORKERS.min(subscribers) {
        let mine = receivers.iter().skip(worker).step_by(WORKERS).map(UdpSocket::local_addr).collect::<io::Result<Vec<_>>>()?;
        let (ring, its) = (Arc::new(Ring::new()), unit.clone());
        let lent = ring.clone();
        let join = thread::spawn(move || {
            its.note_thread();
            its.work(&lent, &mine);
        });
        lanes.push(Lane { ring, thread: join.thread().clone(), join });
    }
    let ends: Vec<_> = lanes.iter().map(|lane| (lane.ring.clone(), lane.thread.clone())).collect();
    let its = unit.clone();
    let ingress = thread::spawn(move || {
        its.note_thread();
        its.take_in(&ends, is_drained)
    });
    thread::sleep(Duration::from_millis(100));

    let publisher = UdpSocket::bind("127.0.0.1:0")?;
    let (packet, mut buffer) = ([0x80; SIZE], [0; 2048]);
    let (time, sent) = (unit.processor_time(), unit.sent.load(Ordering::Relaxed));
    let (begun, step) = (Instant::now(), Duration::from_secs_f64(f64::from(burst) / RATE));
    let mut next = begun;
    while begun.elapsed().as_secs_f64() < SECONDS {
        if Instant::now() >= next {
            for _ in 0..burst {
                publisher.send_to(&packet, address)?;
            }
            next += step;
        }
        for receiver in &receivers {
            while receiver.recv(&mut buffer).is_ok() {}
        }
        thread::sleep(Duration::from_micros(50));
    }
    thread::sleep(Duration::from_millis(50));
    let (time, sent) = (unit.processor_time() - time, unit.sent.load(Ordering::Relaxed) - sent);
    unit.is_stopped.store(true, Ordering::Relaxed);
    ingress.join().unwrap()?;
    for lane in lanes {
        lane.ring.is_stopped.store(true, Ordering::Release);
        lane.thread.unpark();
        lane.join.join().unwrap();
    }
    Ok(time as f64 / 1000.0 / sent as f64)
}

fn main() -> io::Result<()> {
    println!("us for a packet out, {WORKERS} workers, {RATE} packets a second in bursts; {RUNS} runs");
    for burst in [1, 8, 32] {
        for subscribers in [1, 16] {
            let mut costs = [[0.0; RUNS]; 2];
            for run in 0..RUNS {
                for (is_drained, costs) in costs.iter_mut().enumerate() {
                    costs[run] = cost(is_drained == 1, subscribers, burst)?;
                }
            }
            for (name, costs) in ["each", "drained"].iter().zip(&mut costs) {
                costs.sort_by(f64::total_cmp);
                let [least, median, most] = [costs[0], costs[RUNS / 2], costs[RUNS - 1]];
                println!("  bursts of {burst}, {subscribers} subscribers, {name}: {median:.2} ({least:.2} to {most:.2})");
            }
        }
    }
    Ok(())
}
