//! A small file in which a controller keeps the last row that it knows, so that it finds what a log has lost.
//!
//! The log itself cannot show that its last rows are gone, for example after somebody restored an older copy. The file
//! has two lines, which are written in turn, so that one is whole at any moment. It is not synced: after a power loss
//! it may be some rows old, and never has one that the log was not given.

use crate::{Error, Known, LastRow, Store};
use std::fs::{File, OpenOptions};
use std::io::{Error as Cause, ErrorKind, Read};
use std::os::unix::fs::FileExt;
use std::path::Path;

/// How long a line is, with its end.
const LINE: usize = 64;

/// The file, and which of its lines is written next.
pub(crate) struct Witness {
    file: File,
    next: u64,
}

impl Store {
    /// From now on keeps the last row in this file, after each answer to a step. An existing file has to name a row
    /// that the log has: a shorter log, or another one, fails with [`Error::NotWitnessed`].
    ///
    /// Only one store at a time may keep its row in a file.
    pub fn keep_witness(&mut self, path: impl AsRef<Path>) -> Result<(), Error> {
        let mut options = OpenOptions::new();
        let opened = options.read(true).write(true).create(true).truncate(false).open(path.as_ref());
        let mut file = opened.map_err(no_witness)?;
        let mut text = String::new();
        // A file of something else is no witness, however long it is.
        file.by_ref().take(2 * LINE as u64 + 1).read_to_string(&mut text).map_err(no_witness)?;
        let rows = text.lines().filter_map(|line| line.trim_end().parse::<LastRow>().ok());
        let row = rows.max_by_key(|row| row.number);
        match row {
            Some(row) => self.has_row(row).map_err(|error| match error {
                Error::Damaged(why) => Error::NotWitnessed(why),
                error => error,
            })?,
            None if text.is_empty() => {}
            None => return Err(no_witness(Cause::new(ErrorKind::InvalidData, "it holds no row"))),
        }
        let mut witness = Witness { file, next: 0 };
        let known = self.latest()?.last_row();
        // Both lines, so that what is left of an earlier one is gone.
        for _ in 0..2 {
            witness.write(known).map_err(no_witness)?;
        }
        self.witness = Some(witness);
        Ok(())
    }

    /// Tells the witness of rows that were just stored.
    pub(crate) fn tell_witness(&mut self, known: Known) -> Result<(), Error> {
        match &mut self.witness {
            Some(witness) => witness.write(LastRow::of(known)).map_err(|error| Error::Witness(error.to_string())),
            None => Ok(()),
        }
    }
}

impl Witness {
    fn write(&mut self, row: LastRow) -> Result<(), Cause> {
        let line = format!("{:<width$}\n", row.to_string(), width = LINE - 1);
        self.file.write_all_at(line.as_bytes(), self.next * LINE as u64)?;
        self.next = 1 - self.next;
        Ok(())
    }
}

fn no_witness(error: Cause) -> Error {
    Error::File(format!("the witness file cannot be used: {error}"))
}
