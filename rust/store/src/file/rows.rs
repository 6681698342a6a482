//! A row of the journal, from and to its columns.

use crate::Known;
use crate::replica::{Row, Stamp};
use crate::request::{Asked, Change, DROP_MARK, SET_MARK, SET_RIGHTS, WRITE_SCORES};
use cindrolf::{Kind, MarkName, Step};
use sqlite::{Row as Columns, Value};

/// What a copy follows.
pub const FOLLOWED: &str = "seq, request, part, kind, client, input, answer, value, chain";

/// What a row has besides, for people.
pub const STORED: &str = "seq, request, part, kind, client, input, answer, value, chain, time, process, note";

/// What is stored with each row of a request.
pub struct Origin<'a> {
    /// When it was stored, in microseconds since 1970, if that is known.
    pub time: Option<i64>,
    /// The process that asked, if that is known.
    pub process: Option<&'a str>,
}

/// The row in these columns. None where it can't be one.
pub fn load(columns: Columns<'_>) -> Option<Row> {
    let integer = |column| match columns.value(column) {
        Value::Integer(number) => Some(number),
        _ => None,
    };
    let change = change(integer(3)? as u64, columns.value(4), columns.value(5))?;
    let value = match columns.value(7) {
        Value::Null => None,
        Value::Integer(value) => Some(value as u64),
        _ => return None,
    };
    let Value::Blob(chain) = columns.value(8) else { return None };
    let known = Known { rows: integer(0)?, chain: chain.try_into().ok()? };
    let told = Some(Stamp { answer: integer(6)? as u64, value });
    Some(Row { id: integer(1)? as u64, index: integer(2)? as u64, change, known, told })
}

/// The step of a kind, with its client and its input.
pub fn change(kind: u64, client: Value<'_>, input: Value<'_>) -> Option<Change> {
    let client = match client {
        Value::Null => None,
        Value::Integer(client) => Some(client as u64),
        _ => return None,
    };
    if let Some(kind) = Kind::from_number(kind) {
        let value = match (kind, input) {
            (Kind::Write, Value::Integer(value)) => value as u64,
            (Kind::Write, _) => return None,
            (_, Value::Null) => 0,
            _ => return None,
        };
        return Some(Change::Step(client?, Step::new(kind, value)));
    }
    Some(match (kind, client, input) {
        (WRITE_SCORES, Some(client), Value::Blob(bytes)) => Change::WriteScores(client, scores(bytes)?),
        (SET_MARK, None, Value::Blob(bytes)) => Change::SetMark(mark_name(bytes)?),
        (DROP_MARK, None, Value::Blob(bytes)) => Change::DropMark(mark_name(bytes)?),
        (SET_RIGHTS, Some(client), Value::Integer(word)) => Change::SetRights(client, word as u64),
        _ => return None,
    })
}

/// Calls `insert` with the values of a row, in the order of its columns.
pub fn stored<T>(
    known: Known,
    (id, index): (u64, u64),
    asked: &Asked,
    stamp: Stamp,
    origin: &Origin<'_>,
    insert: impl FnOnce(&[Value<'_>; 12]) -> T,
) -> T {
    let integer = |number: u64| Value::Integer(number as i64);
    let bytes = input_bytes(&asked.change);
    let input = match &asked.change {
        Change::Step(_, step) if step.kind() == Kind::Write => integer(step.value()),
        Change::SetRights(_, word) => integer(*word),
        Change::Step(..) => Value::Null,
        _ => Value::Blob(&bytes),
    };
    insert(&[
        Value::Integer(known.rows),
        integer(id),
        integer(index),
        integer(asked.change.kind()),
        asked.change.client().map_or(Value::Null, integer),
        input,
        integer(stamp.answer),
        stamp.value.map_or(Value::Null, integer),
        Value::Blob(&known.chain),
        origin.time.map_or(Value::Null, Value::Integer),
        origin.process.map_or(Value::Null, Value::Text),
        asked.note.as_deref().map_or(Value::Null, Value::Text),
    ])
}

/// Scores as two bytes each with the low one first; a mark's name without the zeros at its end.
fn input_bytes(change: &Change) -> Vec<u8> {
    match change {
        Change::WriteScores(_, scores) => scores.iter().flat_map(|score| score.to_le_bytes()).collect(),
        Change::SetMark(MarkName(name)) | Change::DropMark(MarkName(name)) => {
            let length = name.iter().rposition(|&byte| byte != 0).map_or(0, |last| last + 1);
            name[..length].to_vec()
        }
        _ => Vec::new(),
    }
}

fn scores(bytes: &[u8]) -> Option<Vec<u16>> {
    let (chunks, rest) = bytes.as_chunks();
    rest.is_empty().then(|| chunks.iter().map(|&chunk| u16::from_le_bytes(chunk)).collect())
}

fn mark_name(bytes: &[u8]) -> Option<MarkName> {
    let mut name = [0; 8];
    name.get_mut(..bytes.len())?.copy_from_slice(bytes);
    Some(MarkName(name))
}
