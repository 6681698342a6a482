//! Copies the write-ahead log to the file, only while the write lock is certainly held.
//!
//! SQLite's own checkpoint reads how long the log is, and then copies. In SQLite 3.40.1 another process may restart the
//! log in between; then the first process marks pages as copied that are not, and what is written to them is lost. With
//! two of three processes delayed at these places, 497 of 998 acknowledged writes were left, and `check` found nothing.
//! So SQLite never copies by itself: one connection holds `BEGIN IMMEDIATE`, and a second one copies.
//! `wal_checkpoint(RESTART)` or `(TRUNCATE)` would take the lock too, but copy without it if they do not get it in
//! time. A process that stores a row whose number is a multiple of 64 looks whether the log has 512 pages: so one
//! process does it, and if readers prevent a restart of the log, another does soon after. The last process that closes
//! the log leaves the copying to SQLite, under the exclusive lock of the file.

use super::FileEngine;
use super::store::FileStore;
use super::watched::FileNumber;
use crate::Error;
use sqlite::{Database, Mode};
use std::time::Duration;

/// From how many pages on a write-ahead log is copied. While it grows a sync takes longer, so that this is half of what
/// is usual.
const LONG: i32 = 512;

/// Who stores a row whose number is a multiple of this looks whether the log is that long: so only one process does.
const EVERY: u64 = 64;

impl FileStore {
    /// Copies the write-ahead log to the file, and says whether that is all of it.
    pub fn copy_now(&mut self) -> Result<bool, Error> {
        if self.is_read_only() {
            return Err(Error::ReadOnly);
        }
        self.guarded(|link| match link.engine.copy_to_file() {
            Err(error) if error.is_busy() => Ok(false),
            copied => copied,
        })
    }

    pub fn end(&mut self) -> Result<(), Error> {
        let holds = self.holds();
        let Some(link) = self.link.take() else { return Ok(()) };
        let mut engine = link.engine;
        // Nothing is copied to a file that is not this log's.
        holds?;
        if self.is_read_only() {
            return Ok(());
        }
        let copied = if engine.to_copy { engine.copy_to_file() } else { Ok(true) };
        engine.copier = None;
        engine.database.copy_on_closing()?;
        match copied {
            Err(error) if !error.is_busy() => Err(error),
            _ => Ok(()),
        }
    }
}

impl Drop for FileStore {
    fn drop(&mut self) {
        let _ = self.end();
    }
}

impl FileEngine {
    /// How long to wait for the lock for what can be done later.
    pub const SHORT: Duration = Duration::from_millis(100);

    /// Copies the write-ahead log if it is long and the present call has stored a row after which to look.
    pub fn copy_if_long(&mut self, rows: i64) {
        let seq = rows as u64;
        if self.added > 0 && self.database.pages() >= LONG && seq / EVERY != (seq - self.added) / EVERY {
            // Where it cannot be done it is tried again after as many rows.
            let _ = self.copy_to_file();
        }
    }

    /// Copies the write-ahead log to the file, and says whether that is all of it.
    pub fn copy_to_file(&mut self) -> Result<bool, Error> {
        let Some(beside) = &self.beside else { return Ok(true) };
        if self.copier.is_none() {
            let copier = Database::open_log(&self.database.file(), Mode::Existing, FileEngine::SHORT)?;
            copier.execute("PRAGMA synchronous = FULL")?;
            // What it has opened by reading is what this connection has.
            copier.number("PRAGMA application_id")?;
            if FileNumber::of_open(&copier.file(), &copier)? != self.file {
                return Err(Error::Replaced);
            }
            beside.holds()?;
            self.copier = Some(copier);
        }
        self.database.set_patience(FileEngine::SHORT);
        let begun = self.begin.execute(&[]);
        self.database.set_patience(self.patience);
        begun?;
        // Meanwhile it may have lost its name, and others may have gone on without it.
        let holds = beside.holds();
        let copied = holds.and_then(|()| self.copier.as_ref().map_or(Ok(false), Database::copy_under_lock));
        self.rollback.execute(&[])?;
        self.to_copy &= !matches!(copied, Ok(true));
        Ok(copied?)
    }
}
