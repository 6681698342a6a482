//! The check of a file: whether it is consistent, its last row, and which files the log consists of now.

use crate::failure::Failure;
use crate::given;
use crate::json::Json;
use std::path::{Path, PathBuf};
use std::process::ExitCode;
use store::{Checked, Error, LastRow, Store, WrongAnswer};

/// Prints that the file holds together, with the last row, and what to copy. Where a row is given, the log has to have it.
/// Stored answers that are not the log's are named; the log itself holds together with them.
pub fn check(file: &Path, at: Option<LastRow>, as_json: bool) -> Result<ExitCode, Failure> {
    let opened = Store::open(file).map_err(|error| Failure::of_reading(file, error));
    let mut store = opened?;
    let (last, wrong) = checked(&mut store, at).map_err(|error| Failure::of_reading(file, error))?;
    // Closing it makes one file of the log, where no other process uses it.
    drop(store);
    crate::print(&if as_json { json(file, last, &wrong).line() } else { text(file, last, &wrong) })?;
    Ok(if wrong.is_empty() { ExitCode::SUCCESS } else { ExitCode::FAILURE })
}

fn text(file: &Path, last: LastRow, wrong: &[WrongAnswer]) -> String {
    let rows = if last.number == 1 { "1 row".into() } else { format!("{} rows", last.number) };
    let found = if wrong.is_empty() { "ok" } else { "the log is whole, and answers stored in it are wrong" };
    let wrong_lines: String = wrong.iter().map(|wrong| format!("{wrong}\n")).collect();
    let shown = file.display();
    let files = match files(file) {
        Files::Server => format!("on a server: to copy the log, use 'cindrolf copy {shown} TO'"),
        Files::Three => {
            format!(
                "three files: {shown}, {shown}-wal and {shown}-shm; to copy the log, use 'cindrolf copy {shown} TO'"
            )
        }
        Files::One => format!("one file: to copy the log, copy {shown}"),
    };
    format!("{found}, {rows}\n{wrong_lines}last row {last}\n{files}\n")
}

fn json(file: &Path, last: LastRow, wrong: &[WrongAnswer]) -> Json {
    let answer = |wrong: &WrongAnswer| {
        Json::Object(vec![
            ("row", wrong.row.unsigned_abs().into()),
            ("process", wrong.process.clone().into()),
            ("stored", wrong.stored.clone().into()),
            ("replayed", wrong.replayed.clone().into()),
        ])
    };
    let files = match files(file) {
        Files::Server => "server",
        Files::Three => "three",
        Files::One => "one",
    };
    Json::Object(vec![
        ("file", Json::path(file)),
        ("ok", wrong.is_empty().into()),
        ("rows", last.number.unsigned_abs().into()),
        ("last_row", last.to_string().into()),
        ("wrong_answers", Json::list(wrong.iter().map(answer))),
        ("files", files.into()),
    ])
}

fn checked(store: &mut Store, at: Option<LastRow>) -> Result<(LastRow, Vec<WrongAnswer>), Error> {
    let Checked { rows, wrong } = store.check()?;
    if let Some(row) = at {
        store.has_row(row)?;
    }
    let last = store.row(rows)?.ok_or_else(|| Error::Damaged(format!("row {rows} of its journal is missing")))?;
    Ok((last, wrong))
}

/// Of which files the log is made.
enum Files {
    One,
    Three,
    Server,
}

/// Whether the log is one file. Where the write-ahead log stays after closing, another process uses it.
fn files(file: &Path) -> Files {
    if given::is_address(file) {
        return Files::Server;
    }
    // SQLite keeps its files beside the one that a symbolic link leads to.
    let mut beside = file.canonicalize().unwrap_or(file.into()).into_os_string();
    beside.push("-wal");
    if PathBuf::from(beside).exists() { Files::Three } else { Files::One }
}
