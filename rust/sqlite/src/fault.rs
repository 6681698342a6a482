//! The errors of SQLite.

use crate::raw as sqlite;
use std::ffi::c_int;
use std::fmt;

/// What SQLite answered where it did not do what it was asked.
#[derive(Clone, Debug, PartialEq, Eq)]
pub struct Fault {
    /// Its extended result code.
    pub code: i32,
    /// What it says.
    pub message: String,
}

impl Fault {
    /// Its result code without the extension.
    pub fn primary(&self) -> c_int {
        self.code & 0xFF
    }

    /// Whether another process held the lock for longer than this one waits.
    pub fn is_busy(&self) -> bool {
        matches!(self.primary(), sqlite::BUSY | sqlite::PROTOCOL)
    }
}

/// What it means here, where SQLite's own words would not tell, and its code.
impl fmt::Display for Fault {
    fn fmt(&self, f: &mut fmt::Formatter<'_>) -> fmt::Result {
        let told = match self.primary() {
            _ if self.code == sqlite::IOERR_VNODE => &self.message,
            _ if self.is_busy() => "another process held the log for longer than this one waits",
            sqlite::FULL => "the disk is full",
            sqlite::READONLY => "the file or its folder cannot be written",
            sqlite::CANTOPEN => "the file, or one that SQLite keeps beside it, cannot be opened",
            sqlite::IOERR => "the disk failed",
            _ => &self.message,
        };
        write!(f, "{told} (SQLite's code {})", self.code)
    }
}

impl std::error::Error for Fault {}
