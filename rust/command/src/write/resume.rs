//! Skips the reads of the input that an interrupted `write` has stored.
//!
//! A read is found by its place: the n-th read of the client that is stored with a note, over all logs in their order,
//! has to be the n-th of the input that the log does not refuse, with the same name and the same scores. So a name that
//! occurs twice, or was cut, leads to no other read; and if anything differs, nothing is written.

use crate::failure::Failure;
use crate::signals::Signals;
use crate::write::source::{Next, Source, fits};
use std::path::Path;
use store::{Asked, Change, Error, JournalRow, Store};

/// Passes over the reads of the input that are stored.
pub struct Passed<'a> {
    pub source: &'a mut dyn Source,
    pub signals: &'a Signals,
    pub client: u64,
    /// How many reads of the input were passed over, with those that the log refuses.
    pub read: u64,
    /// How many of them are stored.
    pub stored: u64,
}

impl Passed<'_> {
    /// Passes over those of one log, and says whether there are any.
    pub fn over(&mut self, log: &Path, store: &mut Store) -> Result<bool, Failure> {
        let (before, mut failure) = (self.stored, None);
        let passed = store.each_row(|row| {
            self.row(log, row).map_err(|found| {
                failure = Some(found);
                Error::Missing
            })
        });
        match (failure, passed) {
            // Then the input had an end before its own.
            _ if self.signals.came() => Ok(false),
            (Some(failure), _) => Err(failure),
            (None, Err(error)) => Err(Failure::of_reading(log, error)),
            (None, Ok(())) => Ok(self.stored > before),
        }
    }

    fn row(&mut self, log: &Path, row: JournalRow<'_>) -> Result<(), Failure> {
        let (Change::WriteScores(client, _), Some(note), Some(_)) = (&row.change, row.note, row.value) else {
            return Ok(());
        };
        if *client != self.client {
            return Ok(());
        }
        let other = |why: String| {
            Err(Failure::File(log.into(), format!("row {}, read {note}: {why}; {WHAT_TO_DO}", row.number)))
        };
        let Some(asked) = self.next()? else { return other(format!("the input has only {} reads", self.read)) };
        let name = asked.note.as_deref().unwrap_or_default();
        if name != note {
            return other(format!("read {} of the input is {name}", self.read));
        }
        if asked.change != row.change {
            return other(format!("read {} of the input has other scores", self.read));
        }
        self.stored += 1;
        Ok(())
    }

    /// The next read that the log takes.
    fn next(&mut self) -> Result<Option<Asked>, Failure> {
        loop {
            match self.source.next(true)? {
                Next::Read(asked) => {
                    self.read += 1;
                    if fits(&asked) {
                        return Ok(Some(asked));
                    }
                }
                Next::Idle => {}
                Next::End => return Ok(None),
            }
        }
    }
}

const WHAT_TO_DO: &str = "nothing is written: give the LOGs in their first order, and as READS all that was written \
                          to them, as 'cat FIRST SECOND | cindrolf write --resume --fastq - LOG.. CLIENT'";
