//! Rows that are lost from the end of a log, which is consistent without them: a caller that kept the last row finds
//! it.

mod support;

use std::fs::OpenOptions;
use std::os::unix::fs::FileExt;
use std::time::Duration;
use store::database::{Database, Mode};
use support::{Folder, Stepper};

const LEADS: [&str; 4] = ["B 0", "F 0", "C 0", "P 0"];

/// A log of one client with nine rows, and its last row.
fn nine_rows() -> (Folder, String) {
    let folder = Folder::with_log(1);
    folder.steps(&[&LEADS[..], &["W 0 1", "W 0 2", "W 0 3", "W 0 4", "W 0 5"]].concat());
    let row = folder.last_row("run.log");
    assert!(row.starts_with("9:"), "{row}");
    (folder, row)
}

/// Changes the file by SQL, as no process of ours does.
fn change(folder: &Folder, statements: &[&str]) {
    let database = Database::open(&folder.path("run.log"), Mode::Existing, Duration::from_secs(10)).unwrap();
    statements.iter().for_each(|statement| database.execute(statement).unwrap());
}

#[test]
fn the_last_row_is_printed() {
    let (folder, row) = nine_rows();
    let one = "one file: to copy the log, copy run.log";
    assert_eq!(folder.output(&["check", "run.log"]), format!("ok, 9 rows\nlast row {row}\n{one}\n"));
    assert!(folder.output(&["show", "run.log"]).contains(&format!("\nlast row      {row}\n")));
}

// A log that has grown still has each row that was the last.
#[test]
fn rows_that_are_there() {
    let (folder, row) = nine_rows();
    let fresh = Folder::with_log(1).last_row("run.log");
    folder.steps(&["W 0 6"]);
    for at in [&fresh, &row, &folder.last_row("run.log")] {
        assert!(folder.output(&["check", "--at", at, "run.log"]).starts_with("ok, 10 rows\n"), "{at}");
    }
}

#[test]
fn a_tail_that_was_deleted() {
    let (folder, row) = nine_rows();
    let trigger = "CREATE TRIGGER journal_is_not_shortened BEFORE DELETE ON journal\n\
                   BEGIN\n    SELECT RAISE(ABORT, 'the journal of a run log is not shortened');\nEND";
    change(&folder, &["DROP TRIGGER journal_is_not_shortened", "DELETE FROM journal WHERE seq > 5", trigger]);
    // It holds together.
    assert_eq!(folder.checked("run.log"), "ok, 5 rows");
    let lost = "cindrolf: run.log: the log is damaged: it ends at row 5, and the rows up to 9 are missing\n";
    assert_eq!(folder.failure(1, &["check", "--at", &row, "run.log"]), lost);
    // Other rows in their place are others.
    folder.steps(&["W 0 2", "W 0 3", "W 0 4", "W 0 6"]);
    assert_eq!(folder.checked("run.log"), "ok, 9 rows");
    let other = "cindrolf: run.log: the log is damaged: row 9 of its journal is another one, or one before it is\n";
    assert_eq!(folder.failure(1, &["check", "--at", &row, "run.log"]), other);
}

// SQLite takes a write-ahead log up to the first frame that is damaged, and says nothing.
#[test]
fn one_bit_of_a_leftover_write_ahead_log() {
    let (folder, _) = nine_rows();
    let mut stepper = Stepper::start(&folder);
    (0..20).for_each(|value| assert!(stepper.take(&format!("W 0 {value}")).contains("entry")));
    stepper.child.kill().unwrap();
    stepper.child.wait().unwrap();
    let beside = folder.path("run.log-wal");
    let length = std::fs::metadata(&beside).unwrap().len();
    folder.copy_one("run.log", "whole.log");
    folder.copy_one("run.log-wal", "whole.log-wal");
    let row = folder.last_row("whole.log");
    assert!(row.starts_with("29:"), "{row}");
    let (mut byte, file) = ([0], OpenOptions::new().read(true).write(true).open(&beside).unwrap());
    file.read_exact_at(&mut byte, length / 2).unwrap();
    file.write_all_at(&[byte[0] ^ 1], length / 2).unwrap();
    drop(file);
    let rows = folder.checked("run.log");
    let rows: u64 = rows.strip_prefix("ok, ").and_then(|rows| rows.strip_suffix(" rows")).unwrap().parse().unwrap();
    assert!((9..29).contains(&rows), "{rows}");
    let lost =
        format!("cindrolf: run.log: the log is damaged: it ends at row {rows}, and the rows up to 29 are missing\n");
    assert_eq!(folder.failure(1, &["check", "--at", &row, "run.log"]), lost);
}

#[test]
fn wrong_rows() {
    let (folder, row) = nine_rows();
    for at in ["", "9", "x", &row[..row.len() - 1], &format!("-{row}"), &format!("{row}0")] {
        let said = folder.failure(2, &["check", "--at", at, "run.log"]);
        let (first, usage) = said.split_once('\n').unwrap();
        assert_eq!(first, format!("cindrolf: N:CHAIN is as show and check print it, not '{at}'"));
        assert_eq!(usage, "usage: cindrolf check [--at N:CHAIN] [--json] FILE\n");
    }
    let said = folder.failure(2, &["check", "run.log", "--at"]);
    assert!(said.starts_with("cindrolf: --at wants a row after it\n"), "{said}");
}
