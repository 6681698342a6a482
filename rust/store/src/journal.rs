//! The rows of a log with everything that is stored with them, to show or copy.

use crate::replica::{Row, Stamp};
use crate::request::reply;
use crate::{Change, Error};
use cindrolf::Kind;

/// The number of a log's first row.
pub(crate) const FIRST_ROW: i64 = 1;

/// A row of a log.
#[derive(Clone, Debug, PartialEq, Eq)]
pub struct JournalRow<'a> {
    /// Its number, from 1.
    pub number: i64,
    /// What it asks for.
    pub change: Change,
    /// Its answer, as the session program prints it: of a file the stored one, of a server that of the library.
    pub reply: String,
    /// The value that a write has stored, if it was accepted.
    pub value: Option<u64>,
    /// When it was stored, in microseconds since 1970, if that is known.
    pub time: Option<i64>,
    /// The process that asked, if that is known.
    pub process: Option<&'a str>,
    /// Its note.
    pub note: Option<&'a str>,
}

impl JournalRow<'_> {
    /// Whether its answer is a refusal.
    pub fn is_refused(&self) -> bool {
        self.reply.starts_with("ref ")
    }
}

/// A row as an engine gives it, its answer, and what it has for people.
pub(crate) struct StoredRow<'a> {
    pub row: &'a Row,
    pub stamp: Stamp,
    pub time: Option<i64>,
    pub process: Option<&'a str>,
    pub note: Option<&'a str>,
}

/// What is done with each row that is read.
pub(crate) type EachRow<'a> = dyn FnMut(StoredRow<'_>) -> Result<(), Error> + 'a;

impl<'a> StoredRow<'a> {
    /// The row for a caller.
    pub fn shown(&self) -> JournalRow<'a> {
        let StoredRow { row, stamp, time, process, note } = *self;
        let value = match &row.change {
            Change::Step(_, step) if step.kind() == Kind::Write => Some(step.value()),
            _ => stamp.value,
        };
        JournalRow {
            number: row.known.rows,
            change: row.change.clone(),
            reply: reply(stamp.answer),
            value: value.filter(|_| stamp.answer >> 32 == 1),
            time,
            process,
            note,
        }
    }
}
