//! The rows of a log, read without the store.

use std::collections::BTreeMap;
use std::path::Path;
use store::PATIENCE;
use store::database::{Database, Mode, Value};

/// A row of a log.
#[derive(Clone, Debug, PartialEq, Eq)]
pub struct Row {
    /// Its number, from 1.
    pub seq: i64,
    /// The id of its request.
    pub request: i64,
    /// Which step of the request it is, from 0.
    pub part: i64,
    /// The kind of its step.
    pub kind: u64,
    /// The client of its step.
    pub client: Option<u64>,
    /// The value of a write; 0 for another step.
    pub value: u64,
    /// The answer that is stored with it, where one is.
    pub answer: Option<u64>,
}

/// The rows of a log in a file.
pub fn of_file(file: &Path) -> Result<Vec<Row>, String> {
    let text = |fault: store::Fault| fault.to_string();
    let database = Database::open(file, Mode::Existing, PATIENCE).map_err(text)?;
    let columns = "SELECT seq, request, part, kind, client, input, answer FROM journal ORDER BY seq";
    let mut rows = Vec::new();
    let read = database.prepare(columns).map_err(text)?.each(&[], |row| {
        let number = |column| match row.value(column) {
            Value::Integer(number) => Some(number),
            _ => None,
        };
        let sure = |column| number(column).unwrap_or(-1);
        rows.push(Row {
            seq: sure(0),
            request: sure(1),
            part: sure(2),
            kind: sure(3) as u64,
            client: number(4).map(|client| client as u64),
            value: number(5).unwrap_or(0) as u64,
            answer: Some(sure(6) as u64),
        });
        Ok::<(), store::Fault>(())
    });
    read.map_err(text)?;
    Ok(rows)
}

/// That rows are numbered without a gap, that no two requests have the same id, and that each has its steps one after the
/// other from the first on.
pub fn ids(rows: &[Row]) -> Result<(), String> {
    let mut next = BTreeMap::new();
    for (place, row) in (0..).zip(rows) {
        let expected = next.insert(row.request, (row.seq + 1, row.part + 1)).unwrap_or((row.seq, 0));
        if row.seq != place + 1 || (row.seq, row.part) != expected {
            return Err(format!("row {} is not the next of its request, or its id is of another: {row:?}", place + 1));
        }
    }
    Ok(())
}

#[cfg(test)]
mod tests {
    use super::*;

    #[test]
    fn ids_of_requests() {
        let rows = |all: &[(i64, i64, i64)]| {
            let row = |&(seq, request, part)| Row { seq, request, part, kind: 0, client: None, value: 0, answer: None };
            ids(&all.iter().map(row).collect::<Vec<_>>()).is_ok()
        };
        assert!(rows(&[]) && rows(&[(1, 7, 0), (2, 7, 1), (3, 5, 0)]));
        // A gap; a request that begins late, that is there twice, that another has come between, that lacks a part.
        assert!(!rows(&[(2, 7, 0)]) && !rows(&[(1, 7, 1)]) && !rows(&[(1, 7, 0), (2, 7, 0)]));
        assert!(!rows(&[(1, 7, 0), (2, 5, 0), (3, 7, 1)]) && !rows(&[(1, 7, 0), (2, 7, 2)]));
    }
}
