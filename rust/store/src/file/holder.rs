//! Which process holds a log's lock, as the kernel lists it.
//!
//! To ask with `fcntl` we would have to open the file beside the log, and closing it would drop the locks of this
//! process.

use std::fs::File;
use std::io::Read;
use std::os::unix::fs::MetadataExt;
use std::path::{Path, PathBuf};

/// Where SQLite locks the file beside the log for who writes: a single byte.
const WRITE_LOCK: u64 = 120;

/// A process that holds a lock on a log.
#[derive(Clone, Debug, PartialEq, Eq)]
pub struct LockHolder {
    /// Its number.
    pub process: u32,
    /// The name of its program, where that can be read.
    pub name: Option<String>,
    /// Whether it is stopped: it goes on, and gives the lock back, only when it is continued or killed.
    pub stopped: bool,
}

/// How often the list is read. The kernel may leave out a lock while others come and go.
const TRIES: u32 = 5;

/// The process that holds the lock of the log in this file, if there is one and the kernel names it in `/proc/locks`. It
/// may be gone by the time that this returns.
pub fn lock_holder(path: &Path) -> Option<LockHolder> {
    // SQLite keeps its files beside the one that a symbolic link leads to.
    let path = path.canonicalize().ok()?;
    let mut beside = path.clone().into_os_string();
    beside.push("-shm");
    let beside = file_number(&PathBuf::from(beside));
    let process = (0..TRIES).find_map(|_| holder(&locks().ok()?, beside.as_deref(), file_number(&path).as_deref()))?;
    let (name, stopped) = state_of(process);
    Some(LockHolder { process, name, stopped })
}

/// The locks of all processes, in as few calls as can be: between two of them the list changes.
fn locks() -> std::io::Result<String> {
    let (mut file, mut text) = (File::open("/proc/locks")?, Vec::new());
    let mut part = vec![0; 1 << 16];
    loop {
        match file.read(&mut part)? {
            0 => return Ok(String::from_utf8_lossy(&text).into_owned()),
            count => text.extend_from_slice(&part[..count]),
        }
    }
}

/// The process that has the lock of who writes; where there is none, one that begins or ends its use of the files.
fn holder(locks: &str, beside: Option<&str>, file: Option<&str>) -> Option<u32> {
    let locks = || locks.lines().filter_map(Lock::parse).filter(|lock| lock.process != std::process::id());
    let writes = |lock: &Lock<'_>| Some(lock.file) == beside && lock.bytes.contains(&WRITE_LOCK);
    let any = |lock: &Lock<'_>| [beside, file].contains(&Some(lock.file));
    Some(locks().find(writes).or_else(|| locks().find(any))?.process)
}

/// A lock that nobody else may have beside it, as a line of `/proc/locks` has it.
struct Lock<'a> {
    process: u32,
    /// The device's numbers and the file's.
    file: &'a str,
    bytes: std::ops::RangeInclusive<u64>,
}

impl<'a> Lock<'a> {
    /// As `1: POSIX  ADVISORY  WRITE 13570 fe:00:10952722 120 120`. Who waits for a lock has `->` before its kind.
    fn parse(line: &'a str) -> Option<Self> {
        let words: Vec<&str> = line.split_whitespace().collect();
        let &[_, "POSIX" | "OFDLCK", _, "WRITE", process, file, first, last] = &words[..] else { return None };
        let last = if last == "EOF" { u64::MAX } else { last.parse().ok()? };
        Some(Lock { process: process.parse().ok()?, file, bytes: first.parse().ok()?..=last })
    }
}

/// A file as `/proc/locks` names it: the device's numbers in hexadecimal digits, and the file's.
fn file_number(path: &Path) -> Option<String> {
    let file = std::fs::metadata(path).ok()?;
    let device = file.dev();
    let major = (device >> 8) & 0xFFF | (device >> 32) & !0xFFF;
    let minor = device & 0xFF | (device >> 12) & !0xFF;
    Some(format!("{major:02x}:{minor:02x}:{}", file.ino()))
}

/// The name of a process, and whether it is stopped. As `13570 (log) T 1 ..`, where a name may hold any character.
fn state_of(process: u32) -> (Option<String>, bool) {
    let Ok(text) = std::fs::read_to_string(format!("/proc/{process}/stat")) else { return (None, false) };
    let name = text.split_once('(').and_then(|(_, rest)| rest.rsplit_once(')'));
    let stopped = name.is_some_and(|(_, rest)| matches!(rest.trim_start().chars().next(), Some('T' | 't')));
    (name.map(|(name, _)| name.to_owned()), stopped)
}

#[cfg(test)]
mod tests {
    use super::*;

    #[test]
    fn lines() {
        let lock = Lock::parse("1: POSIX  ADVISORY  WRITE 13570 fe:00:10952722 120 120").unwrap();
        assert_eq!((lock.process, lock.file, lock.bytes), (13570, "fe:00:10952722", 120..=120));
        let lock = Lock::parse("12: OFDLCK ADVISORY  WRITE 7 08:01:9 0 EOF").unwrap();
        assert_eq!((lock.process, lock.file, lock.bytes), (7, "08:01:9", 0..=u64::MAX));
        for line in [
            "1: POSIX  ADVISORY  READ 13570 fe:00:10952722 123 123",
            "1: -> POSIX  ADVISORY  WRITE 13570 fe:00:10952722 120 120",
            "2: FLOCK  ADVISORY  WRITE 13570 fe:00:10952722 0 EOF",
            "1: POSIX  ADVISORY  WRITE",
            "",
        ] {
            assert!(Lock::parse(line).is_none(), "{line}");
        }
    }
}
