//! Rows of a journal that no process stored, with the chain values that they would have.

use std::path::Path;
use store::database::{Database, Mode, Value};
use store::{Fault, PATIENCE};

/// A row: its request, which step of that it is, its kind and its client, as docs/SHARING.md numbers them.
pub type Numbers = [u64; 4];

/// The chain value of a row as docs/SHARING.md defines it: over that of the row before, its numbers and its input.
pub fn chain(before: &[u8], numbers: Numbers, input: &[u8]) -> Vec<u8> {
    let numbers: Vec<u8> = numbers.into_iter().flat_map(u64::to_be_bytes).collect();
    digest::sha256(&[before, &numbers, input].concat())[..16].to_vec()
}

/// Adds a row at the end, with an input as it is stored and as its bytes, and with this answer.
pub fn add(file: &Path, numbers: Numbers, input: Value<'_>, bytes: &[u8], answer: i64) -> Result<(), Fault> {
    let database = Database::open(file, Mode::Existing, PATIENCE)?;
    let rows = database.number("SELECT max(seq) FROM journal")?.unwrap_or(0);
    let mut before = vec![0; 16];
    let last = "SELECT chain FROM journal WHERE seq = ?1 UNION ALL SELECT chain FROM log WHERE ?1 = 0";
    database.prepare(last)?.first(&[Value::Integer(rows)], |row| {
        if let Value::Blob(bytes) = row.value(0) {
            before = bytes.to_vec();
        }
        Some(())
    })?;
    let chain = chain(&before, numbers, bytes);
    let [id, index, kind, client] = numbers.map(|number| Value::Integer(number as i64));
    let client = if (11..=12).contains(&numbers[2]) { Value::Null } else { client };
    let insert = "INSERT INTO journal (seq, request, part, kind, client, input, answer, chain, process) \
                  VALUES (?, ?, ?, ?, ?, ?, ?, ?, 'forger')";
    let (seq, answer) = (Value::Integer(rows + 1), Value::Integer(answer));
    database.prepare(insert)?.execute(&[seq, id, index, kind, client, input, answer, Value::Blob(&chain)])
}

/// Adds a row that drops a mark of this name, of at most eight bytes, and says that it was done.
pub fn drop_mark(file: &Path, name: &str) -> Result<(), Fault> {
    let mut word = [0; 8];
    word[..name.len()].copy_from_slice(name.as_bytes());
    add(file, [9 << 32, 0, 12, 0], Value::Blob(name.as_bytes()), &word, 0)
}
