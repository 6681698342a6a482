//! A log that gets long. Its steps name one client after the other, since a log takes a limited number of writes.

use crate::sides::{BESIDE, STORE, side_at};
use cindrolf::{Capacity, Step};
use limits::BATCH_LIMIT;
use std::path::Path;
use std::time::{Duration, Instant};
use store::{Asked, CLIENT_ROW_LIMIT, Change, Error, Store};

/// How many rows such logs are given.
pub const ROWS: [i64; 4] = [1_000, 10_000, 100_000, 900_000];

const CLIENTS: u64 = 16;

/// How many rows there can be.
const MOST: i64 = CLIENTS as i64 * CLIENT_ROW_LIMIT as i64;

/// A log and how many rows it has.
pub struct Long {
    /// The log.
    pub store: Store,
    rows: i64,
}

impl Long {
    /// A new log of so many rows, in a file or on a server.
    pub fn create(path: impl AsRef<Path>, rows: i64) -> Result<Long, Error> {
        let mut long = Long { store: Store::create(path, CLIENTS, Capacity::Large)?, rows: 0 };
        while long.rows < rows {
            long.take(rows.min(long.rows + BATCH_LIMIT as i64))?;
        }
        Ok(long)
    }

    /// Takes steps up to this row, as one request.
    fn take(&mut self, last: i64) -> Result<(), Error> {
        let name = |row| Change::Step((row as u64 + 1) % CLIENTS, Step::NAME).into();
        let request: Vec<Asked> = (self.rows..last).map(name).collect();
        assert!(self.store.take_all(&request)?.iter().all(Result::is_ok), "row {}", self.rows);
        self.rows = last;
        Ok(())
    }

    /// Single steps a second, and plain writes a second, in turn: for some seconds, or until the log takes no more.
    pub fn beside(&mut self, seconds: u64, mut plain: impl FnMut()) -> Result<[f64; 2], Error> {
        let (mut counts, mut spent) = ([0; 2], [Duration::ZERO; 2]);
        let began = Instant::now();
        while began.elapsed() < Duration::from_secs(seconds) && self.rows < MOST {
            let (side, since) = (side_at(began.elapsed()), Instant::now());
            match side {
                STORE => self.take(self.rows + 1)?,
                _ => plain(),
            }
            counts[side] += 1;
            spent[side] += since.elapsed();
        }
        Ok([STORE, BESIDE].map(|side| f64::from(counts[side]) / spent[side].as_secs_f64()))
    }
}

#[cfg(test)]
mod tests {
    use super::*;
    use crate::scratch::Scratch;

    #[test]
    fn has_as_many_rows_as_it_is_given() {
        let room = Scratch::in_memory();
        for rows in [0, 1, 300, 1_000] {
            let mut long = Long::create(room.file(&format!("{rows}.db")), rows).unwrap();
            assert_eq!((long.rows, long.store.latest().unwrap().rows()), (rows, rows));
        }
    }

    #[test]
    fn measures_both_sides() {
        let room = Scratch::in_memory();
        let mut long = Long::create(room.file("run.db"), 20).unwrap();
        let mut inserts = 0_u32;
        let pause = Duration::from_millis(2);
        let [store, plain] = long
            .beside(1, || {
                std::thread::sleep(pause);
                inserts += 1;
            })
            .unwrap();
        assert!(long.rows > 20 && long.store.latest().unwrap().rows() == long.rows);
        // A plain write takes at least its pause.
        assert!(inserts > 0 && plain > 0.0 && plain <= 500.0 && store > 0.0, "{store} {plain} {inserts}");
    }
}
