//! The files of a log on the disk: which ones they are, and whether their names still lead to them.
//!
//! The store checks the name of the write-ahead log after each call, and the file's own before it: one more system call
//! for a step, some 0.6 µs. It asks for the file's number, and not for its times, as Rust's own function does: the
//! kernel then notes the next change's time more exactly, and that is one more thing to write. On ext4 and Linux 6.18 a
//! write with its sync took 123 and 135 µs alone, 134 and 128 with the look at the number, and 182 and 193 with the
//! times. To look at `-shm` as well would be another call; it disappears only if somebody removes it by hand. A
//! connection whose write-ahead log has lost its name is closed without copying, since others may have gone on without
//! it.
//!
//! A store that has to read the file from the beginning must find the last row that it had read or stored, with its
//! checksum. So a controller that goes on running finds steps that were lost with a removed file.

use super::system::{Found, find};
use crate::Error;
use sqlite::{Database, Fault};
use std::ffi::CString;
use std::io::ErrorKind;
use std::os::unix::ffi::OsStrExt;
use std::path::{Path, PathBuf};

/// How long a file is in which there is nothing: a page at most.
const EMPTY: u64 = 4_096;

/// A file, whatever its name is: its device's two numbers, and its own there.
#[derive(Clone, Copy, Debug, PartialEq, Eq)]
pub(crate) struct FileNumber {
    pub device: [u32; 2],
    inode: u64,
}

impl FileNumber {
    /// The file that this name leads to. One of several names is refused: SQLite makes the name of the write-ahead log
    /// from that of the file, so that under each name there would be another.
    pub fn of_log(path: &Path) -> Result<Self, Error> {
        match find(&c_name(path)?) {
            Ok(file) if file.is_folder => Err(Error::NoLog("it is a folder".into())),
            Ok(file) if file.links > 1 => Err(Error::Unfit(format!(
                "it has {} names (hard links), and steps by different names would not see each other: remove the others \
                 (find -samefile lists them), or replace them by copies",
                file.links
            ))),
            Ok(Found { device, inode, .. }) => Ok(FileNumber { device, inode }),
            Err(error) if error.kind() == ErrorKind::NotFound => Err(Error::Missing),
            Err(error) => Err(Error::File(error.to_string())),
        }
    }

    /// The file or folder that this name leads to, if there is one.
    pub fn of(path: &Path) -> Option<Self> {
        let Found { device, inode, .. } = find(&c_name(path).ok()?).ok()?;
        Some(FileNumber { device, inode })
    }

    /// The file that this name leads to, and that the connection has open.
    pub fn of_open(path: &Path, database: &Database) -> Result<Self, Error> {
        let file = Self::of_log(path)?;
        // SQLite compares what it has open with what the name leads to now: if that was replaced before the look above,
        // it tells, and if later, the number above is the one that it has.
        if database.moved()? { Err(Error::Replaced) } else { Ok(file) }
    }
}

/// The write-ahead log beside a log's file.
pub(crate) struct Beside {
    path: PathBuf,
    /// The same, as the kernel takes it.
    name: CString,
    file: FileNumber,
}

impl Beside {
    /// The one that the connection has open, once it has read: then it has opened it, and holds a lock for which nobody
    /// removes it.
    pub fn of_open(database: &Database) -> Result<Self, Error> {
        let path = database.beside();
        match FileNumber::of(&path) {
            Some(file) => Ok(Beside { name: c_name(&path)?, file, path }),
            None => Err(detached(&path).into()),
        }
    }

    /// That its name still leads to it. What is written to it otherwise, nobody else will ever read.
    pub fn holds(&self) -> Result<(), Fault> {
        match find(&self.name) {
            Ok(Found { device, inode, .. }) if (FileNumber { device, inode }) == self.file => Ok(()),
            _ => Err(detached(&self.path)),
        }
    }

    /// Whether there is nothing in it.
    pub fn is_empty(path: &Path) -> bool {
        std::fs::metadata(path).is_ok_and(|file| file.len() == 0)
    }
}

/// Leaves a file that is no log, or a damaged one, as it is: what stands in its write-ahead log is not copied to it. An
/// empty one was made only now, and goes.
pub(crate) fn leave(database: &Database) {
    if Beside::is_empty(&database.beside()) {
        let _ = database.copy_on_closing();
    }
}

/// Closes a file in which there is nothing, and says whether nobody else has its write-ahead log open: then SQLite removes
/// that.
pub(crate) fn close_empty(database: Database) -> bool {
    let beside = database.beside();
    let nothing = std::fs::metadata(database.file()).is_ok_and(|file| file.len() <= EMPTY);
    let last = nothing && beside.exists() && database.copy_on_closing().is_ok();
    drop(database);
    last && !beside.exists()
}

fn c_name(path: &Path) -> Result<CString, Error> {
    let name = CString::new(path.as_os_str().as_bytes());
    name.map_err(|_| Error::File("the name of the file has a zero byte".into()))
}

fn detached(path: &Path) -> Fault {
    let message = format!("{} was removed or replaced while the log was open", path.display());
    Fault { code: sqlite::IOERR_VNODE, message }
}
