//! The engine: one table of rows, to which whole requests are appended.

use crate::change::Change;
use crate::fault::Fault;
use crate::row::{FIRST_CHAIN, Known, Row, chained};
use std::num::NonZeroU32;

/// The engine has another history than the controller that calls it.
#[derive(Clone, Copy, Debug, PartialEq, Eq)]
pub struct OtherHistory;

/// A request, as it is sent.
#[derive(Clone, Debug, PartialEq, Eq)]
pub struct Request {
    /// Its id.
    pub id: u64,
    /// Its steps.
    pub changes: Vec<Change>,
    /// Which asking it is of. Only the judge looks at it.
    pub asking: usize,
}

/// The engine.
#[derive(Clone, Debug, Default)]
pub struct Engine {
    rows: Vec<Row>,
    numbers: u32,
    /// The highest number that no failover loses.
    kept_numbers: u32,
    fault: Option<Fault>,
}

impl Engine {
    /// An empty table.
    pub fn new(fault: Option<Fault>) -> Engine {
        Engine { fault, ..Engine::default() }
    }

    /// The rows.
    pub fn rows(&self) -> &[Row] {
        &self.rows
    }

    /// A number that no controller was given before.
    pub fn draw(&mut self) -> NonZeroU32 {
        self.numbers += 1;
        NonZeroU32::new(self.numbers).expect("a run draws few numbers")
    }

    /// The place of the request's first row. It is appended where no row has its id.
    pub fn append(&mut self, known: Known, request: &Request) -> Result<usize, OtherHistory> {
        self.compare(known)?;
        if let Some(place) = self.find(request) {
            return Ok(place);
        }
        let place = self.rows.len();
        for (index, &change) in (0..).zip(&request.changes) {
            let before = self.rows.last().map_or(FIRST_CHAIN, |row| row.chain);
            let chain = chained(before, request.id, index, change);
            self.rows.push(Row { id: request.id, index, change, chain, asking: request.asking });
        }
        Ok(place)
    }

    /// The rows after those known.
    pub fn since(&self, known: Known) -> Result<&[Row], OtherHistory> {
        self.compare(known)?;
        let end = if self.fault == Some(Fault::GivesOldRows) { self.old_end(known) } else { self.rows.len() };
        Ok(&self.rows[known.rows..end])
    }

    /// A failover to a copy that has only the first rows.
    pub fn lose(&mut self, kept: usize) {
        self.rows.truncate(kept);
        if self.fault == Some(Fault::GivesNumbersAgain) {
            self.numbers = self.kept_numbers;
        }
    }

    /// From now on a failover that loses rows knows the numbers that were drawn up to here.
    pub fn keep_numbers(&mut self) {
        self.kept_numbers = self.numbers;
    }

    /// The place of the row that is there for the request.
    fn find(&self, request: &Request) -> Option<usize> {
        match self.fault {
            Some(Fault::AppendsTheSameIdTwice) => None,
            Some(Fault::FindsBySteps) => {
                let length = request.changes.len();
                let same = |rows: &[Row]| rows.iter().map(|row| row.change).eq(request.changes.iter().copied());
                self.rows.windows(length).position(|rows| rows[0].index == 0 && same(rows))
            }
            _ => self.rows.iter().position(|row| row.id == request.id),
        }
    }

    /// That the rows which the controller knows are the first ones here.
    fn compare(&self, known: Known) -> Result<(), OtherHistory> {
        let Some(last) = known.rows.checked_sub(1) else { return Ok(()) };
        let there = self.rows.get(last).ok_or(OtherHistory)?;
        let same = match self.fault {
            Some(Fault::ComparesTheCount) => true,
            Some(Fault::ComparesTheLastId) => there.id == known.last_id,
            _ => there.chain == known.chain,
        };
        if same { Ok(()) } else { Err(OtherHistory) }
    }

    /// The end of what a copy that lags has: half of what is new, whole requests.
    fn old_end(&self, known: Known) -> usize {
        let mut end = known.rows + (self.rows.len() - known.rows) / 2;
        while end > known.rows && self.rows[end].index != 0 {
            end -= 1;
        }
        end
    }
}
