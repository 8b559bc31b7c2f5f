//! A server as a process: its start and its end, its processor time, its memory.

use crate::system;
use std::fs;
use std::io::{self, BufRead, BufReader};
use std::path::Path;
use std::process::{Child, ChildStderr, Command, Stdio};
use std::time::Instant;

/// The programs that are measured.
pub struct Programs {
    pub plain: String,
    /// Serves by a file of settings: `PROGRAM serve FILE`.
    pub unit: String,
    /// Lines that stand before its settings.
    pub rules: String,
}

/// Which of them.
#[derive(Clone, Copy, PartialEq)]
pub enum Kind {
    Plain,
    Unit,
}

/// A server that said that it serves. It ends with this value.
pub struct Server {
    process: Child,
    /// Stays open, so that what the server says later goes somewhere.
    said: BufReader<ChildStderr>,
    /// When it said so.
    pub since: Instant,
}

/// How much memory a process has, in KiB: now, and when it had most.
#[derive(Clone, Copy)]
pub struct Memory {
    pub now: f64,
    pub most: f64,
}

impl Programs {
    /// Starts the plain loop with these words.
    pub fn start_plain(&self, words: &[String]) -> io::Result<Server> {
        Server::start(Command::new(&self.plain).args(words))
    }

    /// Starts the program with these settings, in a file beside the plain loop.
    pub fn start_unit(&self, settings: &str) -> io::Result<Server> {
        let file = Path::new(&self.plain).with_file_name("serve.toml");
        fs::write(&file, format!("{}{settings}", self.rules))?;
        Server::start(Command::new(&self.unit).arg("serve").arg(&file))
    }
}

impl Server {
    /// Waits until the server says where it listens; what it says before, as of its building, is passed over.
    fn start(command: &mut Command) -> io::Result<Server> {
        let mut process = command.stderr(Stdio::piped()).spawn()?;
        let Some(said) = process.stderr.take() else {
            return Err(io::Error::other("the server has no error output"));
        };
        let mut server = Server { process, said: BufReader::new(said), since: Instant::now() };
        let mut line = String::new();
        while server.said.read_line(&mut line)? > 0 {
            if line.starts_with("serving ") {
                server.since = Instant::now();
                return Ok(server);
            }
            eprint!("{line}");
            line.clear();
        }
        Err(io::Error::other("the server ended and didn't serve"))
    }

    /// The processor time of each thread so far in nanoseconds, user's and system's, in a fixed order.
    pub fn threads(&self) -> io::Result<Vec<u64>> {
        let mut times = Vec::new();
        for thread in fs::read_dir(format!("/proc/{}/task", self.process.id()))? {
            let counts = fs::read_to_string(thread?.path().join("schedstat"))?;
            let first = counts.split(' ').next().and_then(|word| word.parse().ok());
            times.push(first.ok_or_else(|| io::Error::other(format!("schedstat says {counts:?}")))?);
        }
        Ok(times)
    }

    /// The processor time of all threads so far in nanoseconds.
    pub fn processor_time(&self) -> io::Result<u64> {
        Ok(self.threads()?.iter().sum())
    }

    /// Holds the process up, or lets it go on.
    pub fn hold(&self, held: bool) -> io::Result<()> {
        system::hold(self.process.id(), held)
    }

    pub fn memory(&self) -> io::Result<Memory> {
        let status = fs::read_to_string(format!("/proc/{}/status", self.process.id()))?;
        let field = |name: &str| {
            let line = status.lines().find_map(|line| line.strip_prefix(name));
            let number = line.and_then(|rest| rest.trim().trim_end_matches(" kB").parse().ok());
            number.ok_or_else(|| io::Error::other(format!("no {name} in status")))
        };
        Ok(Memory { now: field("VmRSS:")?, most: field("VmHWM:")? })
    }
}

impl Drop for Server {
    fn drop(&mut self) {
        // It may have ended by itself, and then there is nothing to end.
        let _ = self.process.kill();
        let _ = self.process.wait();
    }
}
