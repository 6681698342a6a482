//! A file of the earlier format, which is only read: each row has the words that its step changed, and a checksum.
//!
//! Its rows are followed as requests, each of one step and with ids in their order, so that a new file made of it has the
//! same rows with the same chain values as this one is read with.

use super::{lost, no_row, rows};
use crate::replica::{Row, Stamp};
use crate::request::WRITE_SCORES;
use crate::{Error, Known};
use cindrolf::sharing::request_id;
use cindrolf::value_of;
use sqlite::{Row as Columns, Value};
use std::num::NonZeroU32;

/// What is read of a row.
pub const FOLLOWED: &str = "seq, kind, client, input, answer, at1, word1, at2, word2, at3, word3, checksum";

/// FNV-1a, by words in place of bytes.
const FNV_PRIME: u64 = 0x0000_0100_0000_01B3;

/// What the checksum of the first row goes on from.
const FIRST_CHECKSUM: u64 = 0xCBF2_9CE4_8422_2325;

/// The row in these columns, after those that are known, and its checksum. `before` is that of the row before, if that
/// was read just now; else this is the last row that is known, or the first.
pub fn load(columns: Columns<'_>, known: Known, before: Option<u64>) -> Result<(Row, u64), Error> {
    let Value::Integer(seq) = columns.value(0) else { return Err(no_row(known.rows + 1)) };
    let numbers = [1, 4, 11].map(|column| match columns.value(column) {
        Value::Integer(number) => Some(number as u64),
        _ => None,
    });
    let [Some(kind), Some(answer), Some(checksum)] = numbers else { return Err(no_row(seq)) };
    let change = rows::change(kind, columns.value(2), columns.value(3)).ok_or_else(|| no_row(seq))?;
    if before.is_none() && known.rows > 0 {
        let row = Row { id: 0, index: 0, change, known, told: None };
        return if seq == known.rows { Ok((row, checksum)) } else { Err(lost(known.rows)) };
    }
    if sum(columns, before.unwrap_or(FIRST_CHECKSUM)) != checksum {
        return Err(Error::Damaged(format!("row {seq} of its journal was changed")));
    }
    // Of a write the second word is its entry.
    let value = match (kind, columns.value(8)) {
        (WRITE_SCORES, Value::Integer(word)) => Some(value_of(word as u64)),
        _ => None,
    };
    let id = id_of(seq);
    let told = Some(Stamp { answer, value });
    let known = Known { rows: seq, ..known.and(id, 0, &change) };
    Ok((Row { id, index: 0, change, known, told }, checksum))
}

/// The id that a row of this number has as a request.
pub fn id_of(seq: i64) -> u64 {
    request_id(NonZeroU32::MIN, (seq - 1) as u32)
}

fn sum(columns: Columns<'_>, before: u64) -> u64 {
    let none = u64::MAX;
    let mut sum = before;
    let mut add = |word: u64| sum = (sum ^ word).wrapping_mul(FNV_PRIME);
    for column in 0..11 {
        match columns.value(column) {
            Value::Integer(number) => add(number as u64),
            Value::Blob(bytes) => {
                add(bytes.len() as u64);
                for chunk in bytes.chunks(8) {
                    let mut word = [0; 8];
                    word[..chunk.len()].copy_from_slice(chunk);
                    add(u64::from_le_bytes(word));
                }
            }
            Value::Null | Value::Text(_) => add(none),
        }
    }
    sum
}
