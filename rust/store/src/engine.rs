//! What an engine that keeps a store's rows has to offer.

use crate::check::WrongAnswer;
use crate::replica::{Replica, Stamp};
use crate::request::Asked;
use crate::{Error, Known};
use std::num::NonZeroU32;

/// A request that is appended: one row for each of its steps.
pub(crate) struct Request<'a> {
    pub id: u64,
    pub asked: &'a [Asked],
    /// What is stored of each answer, if the rows come straight after those that are known.
    pub stamps: &'a [Stamp],
    /// The rows that are known after each step, then.
    pub after: &'a [Known],
}

/// Keeps the rows of a log, and adds to them at their end.
pub(crate) trait Engine {
    /// The copy of no row: the fresh log that the log began with.
    fn beginning(&mut self) -> Result<Replica, Error>;

    /// Has the copy follow the rows that it does not have, up to the request with this id, and gives what it found. It
    /// fails where the rows that the copy is made of are not there.
    fn follow(&mut self, replica: &mut Replica, until: Option<u64>) -> Result<Followed, Error>;

    /// What an engine does before a request is tried: one that is at hand has the copy follow the rows, so that there are
    /// few of them when it is held.
    fn catch_up(&mut self, replica: &mut Replica) -> Result<Vec<WrongAnswer>, Error>;

    /// Comes before an append. An engine that can has nobody else append until `append` or `release`, and the copy has
    /// every row then.
    fn hold(&mut self, replica: &mut Replica) -> Result<Followed, Error>;

    /// Gives up what `hold` took.
    fn release(&mut self) -> Result<(), Error>;

    /// A number that no start was given before, if there is one. It is asked for while the engine is held.
    fn start(&mut self, replica: &Replica) -> Result<Option<NonZeroU32>, Error>;

    /// Appends a request in one transaction, or finds that it is there already.
    fn append(&mut self, known: Known, request: &Request<'_>) -> Result<Appended, Error>;
}

/// What following came to.
#[derive(Default)]
pub(crate) struct Followed {
    /// The stored answers that are wrong.
    pub wrong: Vec<WrongAnswer>,
    /// Whether it came to the request that it was to stop at. The copy has the rows before it.
    pub stopped: bool,
}

/// What became of an append.
pub(crate) enum Appended {
    /// So many rows come before it, and it is on the disk.
    Placed(i64),
    /// Nothing was heard of it: it may be sent again.
    Silence {
        /// Whether anything of it was sent.
        sent: bool,
        why: String,
    },
    /// The engine has another history than the copy.
    OtherHistory,
}
