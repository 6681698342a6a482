//! The answers of rows, which SQL cannot give: the library takes each row, and its answer is sent to the server.

use super::engine::{ServerEngine, load};
use crate::engine::Engine;
use crate::journal::{EachRow, StoredRow};
use crate::replica::{Replica, Row, Stamp};
use crate::{Error, file};
use postgres::Rows;

/// How many answers are sent at a time.
const CHUNK: usize = 1_000;

/// Takes rows one by one, and keeps the copy that they come to.
pub(crate) struct Auditor {
    replica: Replica,
}

impl Auditor {
    pub fn new(engine: &mut ServerEngine) -> Result<Self, Error> {
        Ok(Auditor { replica: engine.beginning()? })
    }

    /// Takes the rows that are new, has the server keep their answers, and gives how many rows are audited.
    pub fn go_on(&mut self, engine: &mut ServerEngine) -> Result<i64, Error> {
        let log = engine.log();
        let audited = engine.read(&format!("SELECT coalesce(max(seq), 0) FROM cindrolf.answers WHERE log = {log}"))?;
        let audited = audited.number(0, 0).unwrap_or(0);
        let (mut first, mut stamps) = (audited + 1, Vec::new());
        self.each(engine, |engine, row, stamp, _, _| {
            if row.known.rows > audited {
                stamps.push(stamp);
            }
            if stamps.len() == CHUNK {
                send(engine, first, &stamps)?;
                first += CHUNK as i64;
                stamps.clear();
            }
            Ok(())
        })?;
        if !stamps.is_empty() {
            send(engine, first, &stamps)?;
        }
        Ok(self.replica.known.rows)
    }

    /// How many rows it has taken.
    pub fn rows_known(&self) -> i64 {
        self.replica.known.rows
    }

    /// Gives each row that is new, with its answer.
    pub fn rows(&mut self, engine: &mut ServerEngine, each: &mut EachRow<'_>) -> Result<(), Error> {
        self.each(engine, |_, row, stamp, rows, place| {
            let (time, process, note) = (rows.number(place, 7), rows.text(place, 8), rows.text(place, 9));
            each(StoredRow { row, stamp, time, process, note })
        })
    }

    fn each(
        &mut self,
        engine: &mut ServerEngine,
        mut each: impl FnMut(&mut ServerEngine, &Row, Stamp, &Rows, usize) -> Result<(), Error>,
    ) -> Result<(), Error> {
        loop {
            let known = self.replica.known.rows;
            let rows = engine.page(known + 1)?;
            for place in 0..rows.count() {
                let row = load(&rows, place).ok_or_else(|| file::no_row(self.replica.known.rows + 1))?;
                let next = self.replica.known.and(row.id, row.index, &row.change);
                if row.known != next {
                    return Err(Error::Damaged(format!("row {} is missing, or was changed", next.rows)));
                }
                let told = self.replica.take(&row.change)?;
                let stamp = self.replica.stamp(&row.change, told);
                self.replica.count(row.id, row.index, &row.change);
                each(engine, &row, stamp, &rows, place)?;
            }
            if rows.count() == 0 {
                return Ok(());
            }
        }
    }
}

fn send(engine: &mut ServerEngine, first: i64, stamps: &[Stamp]) -> Result<(), Error> {
    let answers: Vec<String> = stamps.iter().map(|stamp| (stamp.answer as i64).to_string()).collect();
    let values = stamps.iter().map(|stamp| stamp.value.map_or("NULL".into(), |value| (value as i64).to_string()));
    let (answers, values) = (answers.join(","), values.collect::<Vec<String>>().join(","));
    let log = engine.log();
    let send = format!("SELECT cindrolf.answer({log}, {first}, ARRAY[{answers}]::bigint[], ARRAY[{values}]::bigint[])");
    engine.read(&send).map(drop)
}
