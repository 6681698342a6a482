//! What a store needs of an open log, in a file or on a server.

use crate::check::{Checked, WrongAnswer};
use crate::driver::Wish;
use crate::file::processes::Stepper;
use crate::journal::EachRow;
use crate::replica::Replica;
use crate::request::{Chain, Told};
use crate::{Error, Known};
use std::path::Path;
use std::time::Duration;

/// A log that is open.
pub(crate) trait Kept: Send {
    /// The file, or the address without its options.
    fn path(&self) -> &Path;

    fn set_patience(&mut self, patience: Duration);

    fn set_process_name(&mut self, name: &str);

    /// Asks for steps. Gives the answers, and the rows that are known now where any were stored.
    fn ask(&mut self, wish: &Wish<'_>) -> Result<(Vec<Told>, Option<Known>), Error>;

    /// The copy, with every row that there is.
    fn latest(&mut self) -> Result<&Replica, Error>;

    /// The rows that the copy is made of, if it was not thrown away.
    fn known(&self) -> Option<Known>;

    fn wrong_answers(&self) -> &[WrongAnswer];

    fn check(&mut self) -> Result<Checked, Error>;

    /// The chain value of a row, if there is one. Row 0 is the fresh log.
    fn chain_of(&mut self, row: i64) -> Result<Option<Chain>, Error>;

    /// Gives each row, from the one of this number on.
    fn each_row(&mut self, first: i64, each: &mut EachRow<'_>) -> Result<(), Error>;

    fn steppers(&mut self, clients: usize) -> Result<Vec<Stepper>, Error>;

    /// Whether there are rows that the copy does not have.
    fn has_more(&mut self) -> Result<bool, Error>;

    /// The place of a request's first row, if it is there.
    fn settle(&mut self, request: u64) -> Result<Option<i64>, Error>;

    /// Has the answer of each row be kept where SQL finds it, and gives how many rows have one.
    fn audit(&mut self) -> Result<i64, Error>;

    fn checkpoint(&mut self) -> Result<bool, Error>;

    fn close(self: Box<Self>) -> Result<(), Error>;

    /// Copies the log to a new file by the means of its engine, if it has any.
    fn copy_file(&mut self, to: &Path) -> Option<Result<(), Error>>;

    fn upgrade_to(&mut self, to: &Path) -> Result<(), Error>;
}
