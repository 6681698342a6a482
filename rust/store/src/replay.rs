//! The rows of a log taken once more, one by one, by a caller that looks at the log between them.

use crate::replica::Replica;
use crate::request::{Change, Told};
use crate::{Error, Latest, Store};
use cindrolf::LogRef;

/// A log that began fresh, and takes the rows that its caller gives it.
///
/// ```
/// use cindrolf::{Capacity, Refusal, Step};
/// use cindrolf_store::{Change, Error, Replay, Store};
///
/// # let folder = std::env::temp_dir().join(format!("cindrolf-replay-{}", std::process::id()));
/// # std::fs::create_dir_all(&folder).unwrap();
/// let mut store = Store::create(folder.join("run.log"), 1, Capacity::Large)?;
/// store.become_leader(0)?;
/// let (mut replay, mut told) = (Replay::of(store.latest()?)?, Vec::new());
/// store.each_row(|row| {
///     told.push(replay.take(&row.change)?);
///     Ok(())
/// })?;
/// assert_eq!(told.len(), 1);
/// assert_eq!(replay.log().state(), store.latest()?.log().state());
/// assert_eq!(replay.take(&Change::Step(0, Step::BECOME))?, Err(Refusal::AlreadyLeads));
/// # std::fs::remove_dir_all(&folder).unwrap();
/// # Ok::<(), Error>(())
/// ```
#[derive(Clone, Debug)]
pub struct Replay(Replica);

impl Replay {
    /// The fresh log that this one began with.
    pub fn of(latest: Latest<'_>) -> Result<Self, Error> {
        let view = latest.view()?;
        Ok(Replay(Replica::fresh(view.client_count(), view.capacity())?))
    }

    /// Takes a row, under the rights at that row, and returns its answer.
    pub fn take(&mut self, change: &Change) -> Result<Told, Error> {
        self.0.take(change)
    }

    /// The log after these rows.
    pub fn log(&self) -> LogRef<'_> {
        self.0.log()
    }
}

impl Store {
    /// As [`each_row`](Store::each_row), from the row of this number on. To follow a log, ask again from the last row:
    /// only the new rows are read.
    pub fn each_row_from(
        &mut self,
        first: i64,
        mut each: impl FnMut(crate::JournalRow<'_>) -> Result<(), Error>,
    ) -> Result<(), Error> {
        self.each_stored_from(first, &mut |row| each(row.shown()))
    }
}
