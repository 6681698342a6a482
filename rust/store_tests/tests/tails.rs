//! The last row, which a controller keeps to find a lost tail.

use cindrolf::{Capacity, Refusal, Step};
use store::database::{Database, Mode};
use store::{Error, LastRow, PATIENCE, Store};
use store_tests::checked::rows_of;
use store_tests::kinds::{changes, prepared};
use store_tests::scratch::Scratch;

// After an answer it is the row of that, and after a refusal the last one of which it was decided.
#[test]
fn what_a_store_has_seen_last() {
    let room = Scratch::in_memory();
    let file = room.file("run.db");
    let mut store = prepared(&file, &changes()[8].before);
    let row = store.last_row().unwrap();
    assert_eq!(row.number, 4);
    let mut other = Store::open(&file).unwrap();
    assert_eq!(other.last_row(), Some(row));
    other.write(0, 7).unwrap();
    let next = other.last_row().unwrap();
    assert_eq!(next.number, 5);
    // The first has not looked since.
    assert_eq!(store.last_row(), Some(row));
    assert_eq!(store.write(1, 7), Err(Error::Refused(Refusal::DoesNotLead)));
    assert_eq!(store.last_row(), Some(next));
    assert_eq!(store.latest().unwrap().last_row(), next);
    assert_eq!((store.row(4), store.row(5), store.row(6)), (Ok(Some(row)), Ok(Some(next)), Ok(None)));
    std::fs::remove_file(&file).unwrap();
    assert_eq!(store.has_row(row), Err(Error::Replaced));
}

#[test]
fn a_log_that_has_it_and_one_that_does_not() {
    let room = Scratch::in_memory();
    let file = room.file("run.db");
    let mut store = prepared(&file, &changes()[8].before);
    let rows: Vec<LastRow> = (0..20)
        .map(|value| {
            store.write(0, value).unwrap();
            store.last_row().unwrap()
        })
        .collect();
    assert!(rows.iter().all(|&row| store.has_row(row) == Ok(())));
    drop(store);
    let database = Database::open(&file, Mode::Existing, PATIENCE).unwrap();
    database.execute("DROP TRIGGER journal_is_not_shortened").unwrap();
    database.execute("DELETE FROM journal WHERE seq > 14").unwrap();
    database.execute(include_str!("../../store/src/file/sql/journal_is_not_shortened.sql")).unwrap();
    drop(database);
    let mut store = Store::open(&file).unwrap();
    assert_eq!(rows_of(store.check()), Ok(14));
    for row in rows {
        let lost = format!("it ends at row 14, and the rows up to {} are missing", row.number);
        assert_eq!(store.has_row(row), if row.number <= 14 { Ok(()) } else { Err(Error::Damaged(lost)) });
    }
    // The store goes on after that.
    let _ = store.take(0, Step::write(99)).unwrap();
}

#[test]
fn another_log() {
    let room = Scratch::in_memory();
    let mut one = Store::create(room.file("one.db"), 2, Capacity::Large).unwrap();
    let mut other = Store::create(room.file("other.db"), 2, Capacity::Large).unwrap();
    let none = one.last_row().unwrap();
    one.become_leader(0).unwrap();
    other.name(1).unwrap();
    let row = one.last_row().unwrap();
    assert_eq!((one.has_row(row), one.has_row(none), other.has_row(none)), (Ok(()), Ok(()), Ok(())));
    let another = "row 1 of its journal is another one, or one before it is";
    assert_eq!(other.has_row(row), Err(Error::Damaged(another.into())));
}
