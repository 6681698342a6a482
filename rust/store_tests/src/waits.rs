//! How long calls took, noted by each process in its own file.

use std::fs::{File, OpenOptions};
use std::io::{self, Write};
use std::path::Path;
use std::time::{Duration, SystemTime, UNIX_EPOCH};

/// Shorter ones are not noted.
const SHORTEST: Duration = Duration::from_millis(20);

/// A call: when it began and when it ended, in microseconds since 1970.
#[derive(Clone, Copy, Debug, PartialEq, Eq)]
pub struct Wait {
    /// The process that made it.
    pub process: u64,
    /// When it began.
    pub from: u64,
    /// When it ended.
    pub to: u64,
}

/// The long calls of one process, to add to.
pub struct Waits(File);

/// The time in microseconds since 1970.
pub fn now() -> u64 {
    SystemTime::now().duration_since(UNIX_EPOCH).map_or(0, |now| now.as_micros() as u64)
}

impl Wait {
    /// How long it took.
    pub fn time(self) -> Duration {
        Duration::from_micros(self.to.saturating_sub(self.from))
    }
}

impl Waits {
    /// Goes on with the notes of a process.
    pub fn open(folder: &Path, process: u64) -> io::Result<Waits> {
        let file = folder.join(format!("waits-{process:02}"));
        OpenOptions::new().create(true).append(true).open(file).map(Waits)
    }

    /// Makes a call, and notes it where it took long.
    pub fn timed<T>(&mut self, call: impl FnOnce() -> T) -> T {
        let from = now();
        let result = call();
        let to = now();
        if to.saturating_sub(from) >= SHORTEST.as_micros() as u64 {
            // What is not noted is only a figure that is missing.
            let _ = self.0.write_all(format!("{from} {to}\n").as_bytes());
        }
        result
    }
}

/// The long calls of so many processes.
pub fn all(folder: &Path, processes: u64) -> Vec<Wait> {
    let mut waits = Vec::new();
    for process in 0..processes {
        let text = std::fs::read_to_string(folder.join(format!("waits-{process:02}"))).unwrap_or_default();
        let numbers = text.lines().filter_map(|line| line.split_once(' '));
        let numbers = numbers.filter_map(|(from, to)| Some((from.parse().ok()?, to.parse().ok()?)));
        waits.extend(numbers.map(|(from, to)| Wait { process, from, to }));
    }
    waits
}
