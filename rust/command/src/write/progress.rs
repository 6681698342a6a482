//! The progress of writing, on a terminal: how many reads, how many a second, and the time left.

use std::io::{IsTerminal, Write};
use std::time::{Duration, Instant};

/// How often the line is written.
const PAUSE: Duration = Duration::from_millis(200);
/// Goes to the beginning of the line, and clears it.
const CLEAR: &str = "\r\x1B[K";

/// A line on standard error, if that is a terminal.
pub struct Progress {
    is_shown: bool,
    began: Instant,
    last: Option<Instant>,
}

impl Progress {
    pub fn begin() -> Self {
        Progress { is_shown: std::io::stderr().is_terminal(), began: Instant::now(), last: None }
    }

    /// Writes the line, unless it was written a moment ago.
    pub fn show(&mut self, reads: u64, unit: &str, read: Option<(u64, u64)>) {
        let now = Instant::now();
        if !self.is_shown || self.last.is_some_and(|last| now - last < PAUSE) {
            return;
        }
        self.last = Some(now);
        let line = line(reads, unit, now - self.began, read);
        let _ = write!(std::io::stderr(), "{CLEAR}{line}");
    }

    /// Clears the line, before anything else is written.
    pub fn clear(&mut self) {
        if self.last.take().is_some() {
            let _ = write!(std::io::stderr(), "{CLEAR}");
        }
    }
}

fn line(reads: u64, unit: &str, taken: Duration, read: Option<(u64, u64)>) -> String {
    let rate = reads as f64 / taken.as_secs_f64().max(0.001);
    let left = read.filter(|&(read, size)| read > 0 && read <= size).map(|(read, size)| {
        let seconds = taken.as_secs_f64() * (size - read) as f64 / read as f64;
        format!(", {} s left", seconds.ceil())
    });
    format!("{reads} {unit}, {rate:.0} a second{}", left.unwrap_or_default())
}

#[cfg(test)]
mod tests {
    use super::*;

    #[test]
    fn lines() {
        let ten = Duration::from_secs(10);
        assert_eq!(line(500_000, "reads", ten, None), "500000 reads, 50000 a second");
        assert_eq!(line(500_000, "reads", ten, Some((25, 100))), "500000 reads, 50000 a second, 30 s left");
        assert_eq!(line(0, "reads", Duration::ZERO, Some((0, 100))), "0 reads, 0 a second");
        // A file that grows meanwhile.
        assert_eq!(line(10, "reads", ten, Some((101, 100))), "10 reads, 1 a second");
    }
}
