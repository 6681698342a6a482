//! A process that stands still while it stores where the write-ahead log ends: until it goes on, nobody can read.

use cindrolf::{Answer, Capacity, Step};
use std::fs::OpenOptions;
use std::os::unix::fs::FileExt;
use std::time::Duration;
use store::database::{Database, Mode};
use store::{PATIENCE, Store, Stored};
use store_tests::scratch::Scratch;

/// SQLite keeps this twice, one after the other, and stores the second one first (sqlite.org/walformat.html).
const HEADER: u64 = 48;
/// Where a header counts its changes.
const CHANGES: u64 = 8;

#[test]
fn is_another_that_holds_the_lock() {
    let room = Scratch::in_memory();
    let file = room.file("run.db");
    let mut store = Store::create(&file, 2, Capacity::Small).unwrap();
    assert_eq!(store.take(1, Step::NAME), Ok(Answer::Done));
    store.set_patience(Duration::from_millis(20));
    let holder = Database::open(&file, Mode::Existing, PATIENCE).unwrap();
    holder.execute("BEGIN IMMEDIATE").unwrap();
    let headers = OpenOptions::new().read(true).write(true).open(room.file("run.db-shm")).unwrap();
    let mut whole = [0; 4];
    headers.read_exact_at(&mut whole, HEADER + CHANGES).unwrap();
    headers.write_all_at(&whole.map(|byte| !byte), HEADER + CHANGES).unwrap();
    let error = store.latest().map(|_| ()).unwrap_err();
    assert!(error.is_busy(), "{error}");
    assert_eq!(error.stored(), Stored::No);
    let told = "not stored: another process held the log for longer than this one waits (SQLite's code 15)";
    assert_eq!(error.to_string(), told);
    // It goes on.
    headers.write_all_at(&whole, HEADER + CHANGES).unwrap();
    holder.execute("ROLLBACK").unwrap();
    assert_eq!(store.latest().unwrap().rows(), 1);
    assert_eq!(store.take(0, Step::NAME), Ok(Answer::Done));
    assert_eq!(store.latest().unwrap().rows(), 2);
}
