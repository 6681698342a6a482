//! The rows of a file with everything that is stored with them.

use super::schema::Format;
use super::store::FileStore;
use super::{lost, no_row, rows};
use crate::Error;
use crate::engine::Engine;
use crate::journal::{EachRow, StoredRow};
use sqlite::Value;

impl FileStore {
    pub fn read_rows(&mut self, first: i64, each: &mut EachRow<'_>) -> Result<(), Error> {
        self.guarded(|link| {
            link.follow()?;
            let last = link.known().rows;
            if link.engine.format == Format::Old {
                let known = link.engine.beginning()?.known;
                return link.engine.read(known, |row| {
                    if row.known.rows < first {
                        return Ok(());
                    }
                    let stamp = row.told.ok_or_else(|| lost(row.known.rows))?;
                    each(StoredRow { row: &row, stamp, time: None, process: None, note: None })
                });
            }
            let select = format!("SELECT {} FROM journal WHERE seq BETWEEN ? AND ? ORDER BY seq", rows::STORED);
            link.engine.database.prepare(&select)?.each(&[Value::Integer(first), Value::Integer(last)], |columns| {
                let row = rows::load(columns).ok_or_else(|| no_row(last))?;
                let stamp = row.told.ok_or_else(|| lost(row.known.rows))?;
                let time = match columns.value(9) {
                    Value::Integer(time) => Some(time),
                    _ => None,
                };
                let text = |column| match columns.value(column) {
                    Value::Text(text) => Some(text),
                    _ => None,
                };
                each(StoredRow { row: &row, stamp, time, process: text(10), note: text(11) })
            })
        })
    }
}
