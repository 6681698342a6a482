//! The check of a whole log: what its engine checks, and every row taken once more, with its answer compared.

use std::fmt;

/// What a check found.
#[derive(Clone, Debug, PartialEq, Eq)]
pub struct Checked {
    /// How many rows there are.
    pub rows: i64,
    /// The stored answers that are not those of the log.
    pub wrong: Vec<WrongAnswer>,
}

/// An answer stored in a row that is not what the log gives there. It changes nothing but what SQL shows of the row.
#[derive(Clone, Debug, PartialEq, Eq)]
pub struct WrongAnswer {
    /// The row's number.
    pub row: i64,
    /// The process that stored it, if the row names one.
    pub process: Option<String>,
    /// The stored answer.
    pub stored: String,
    /// What the log gives.
    pub replayed: String,
}

impl fmt::Display for WrongAnswer {
    fn fmt(&self, f: &mut fmt::Formatter<'_>) -> fmt::Result {
        let WrongAnswer { row, process, stored, replayed } = self;
        let process = process.as_deref().unwrap_or("an unknown process");
        write!(f, "row {row} of {process} has the answer '{stored}', and the log gives '{replayed}'")
    }
}
