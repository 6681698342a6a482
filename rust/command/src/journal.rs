//! The rows of a log, one a line: each step with its reply.

use crate::asked::{asked, letters};
use crate::csv::{line, or_empty};
use crate::marks;
use crate::printable::printable;
use crate::time::utc;
use cindrolf::Kind;
use std::fmt::Write;
use store::{Change, Error, JournalRow, Store};

/// Each row for a person: its number, what it asks for, its reply and its note.
pub fn text(store: &mut Store) -> Result<String, Error> {
    let mut text = String::new();
    store.each_row(|row| {
        let note = row.note.map_or(String::new(), |note| format!(" ({})", printable(note.as_bytes())));
        let _ = writeln!(text, "{} {}: {}{note}", row.number, asked(&row.change), row.reply);
        Ok(())
    })?;
    Ok(text)
}

/// Each row as fields with commas between them, with all that is stored of it but its chain value.
pub fn csv(store: &mut Store) -> Result<String, Error> {
    let mut text = line(&["row", "time", "process", "letter", "step", "client", "input", "reply", "value", "note"]);
    store.each_row(|row| {
        text += &fields(&row);
        Ok(())
    })?;
    Ok(text)
}

fn fields(row: &JournalRow<'_>) -> String {
    let (letter, step, client, input) = match &row.change {
        Change::Step(client, step) => {
            let kind = step.kind();
            let value = (kind == Kind::Write).then(|| step.value());
            (kind.letter().to_string(), kind.to_string(), Some(*client), or_empty(value))
        }
        Change::WriteScores(client, scores) => {
            let scores: Vec<_> = scores.iter().map(u16::to_string).collect();
            (String::new(), "write scores".into(), Some(*client), scores.join(" "))
        }
        Change::SetMark(name) => (String::new(), "set mark".into(), None, marks::printed(*name)),
        Change::DropMark(name) => (String::new(), "drop mark".into(), None, marks::printed(*name)),
        Change::SetRights(client, word) => (String::new(), "set rights".into(), Some(*client), letters(*word)),
    };
    let (number, time) = (row.number.to_string(), or_empty(row.time.map(utc)));
    let process = row.process.unwrap_or_default().to_owned();
    let (value, note) = (or_empty(row.value), row.note.unwrap_or_default().to_owned());
    line(&[number, time, process, letter, step, or_empty(client), input, row.reply.clone(), value, note])
}
