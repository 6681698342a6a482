//! Deceptive files: the store neither runs nor trusts what is in them.

use cindrolf::{Capacity, Refusal};
use std::path::Path;
use std::process::Command;
use std::time::Duration;
use store::database::{Database, Mode};
use store::{Error, PATIENCE, Store};
use store_tests::checked::rows_of;
use store_tests::forged;
use store_tests::kinds::{changes, prepared};
use store_tests::program::run;
use store_tests::scratch::Scratch;

fn by_sql(file: &Path, statements: &[&str]) {
    let database = Database::open(file, Mode::Existing, PATIENCE).unwrap();
    for statement in statements {
        database.execute(statement).unwrap_or_else(|fault| panic!("{statement}: {fault}"));
    }
}

/// That a file is refused as damaged, for this reason.
fn damaged<T>(result: Result<T, Error>, says: &str) {
    match result.map(drop) {
        Err(Error::Damaged(why)) => assert!(why.contains(says), "{why}"),
        other => panic!("{other:?}, and not that {says}"),
    }
}

const SWALLOWS: &str = "BEFORE INSERT ON journal BEGIN SELECT RAISE(IGNORE); END";

#[test]
fn a_trigger_that_swallows_rows() {
    let room = Scratch::new();
    let file = room.file("run.db");
    drop(prepared(&file, &changes()[8].before));
    by_sql(&file, &[&format!("CREATE TRIGGER t {SWALLOWS}")]);
    damaged(Store::open(&file), "t is not as it was made");
}

// SQLite lets no trigger have such a name, unless its table of names is written to.
#[test]
fn a_trigger_named_as_those_of_sqlite() {
    let room = Scratch::new();
    let file = room.file("run.db");
    drop(prepared(&file, &changes()[8].before));
    let insert = format!(
        "INSERT INTO sqlite_schema VALUES ('trigger', 'sqlite_t', 'journal', 0, 'CREATE TRIGGER sqlite_t {SWALLOWS}')"
    );
    by_sql(&file, &["PRAGMA writable_schema = ON", &insert]);
    damaged(Store::open(&file), "sqlite_t is not as it was made");
}

// The trigger comes while a store is open.
#[test]
fn a_trigger_that_comes_later() {
    let room = Scratch::new();
    let file = room.file("run.db");
    let mut store = prepared(&file, &changes()[8].before);
    store.write(0, 1).unwrap();
    by_sql(&file, &[&format!("CREATE TRIGGER t {SWALLOWS}")]);
    damaged(store.write(0, 2), "t is not as it was made");
    by_sql(&file, &["DROP TRIGGER t"]);
    store.write(0, 3).unwrap();
    assert_eq!(rows_of(store.check()), Ok(6));
}

// What ANALYZE leaves is no reason to refuse a log.
#[test]
fn statistics() {
    let room = Scratch::new();
    let file = room.file("run.db");
    let mut store = prepared(&file, &changes()[8].before);
    by_sql(&file, &["ANALYZE"]);
    store.write(0, 1).unwrap();
    assert_eq!(rows_of(Store::open(&file).unwrap().check()), Ok(5));
}

// A row that the log refuses in its place changes nothing, and is no refusal of the step that comes upon it. That it says
// otherwise is reported, with its process, by all who replay it, and stops nobody.
#[test]
fn a_forged_row() {
    let room = Scratch::new();
    let file = room.file("run.db");
    let mut store = prepared(&file, &changes()[3].before);
    forged::drop_mark(&file, "x").unwrap();
    assert_eq!(store.fetch(0), Ok(()));
    let wrong = "row 2 of forger has the answer 'ok', and the log gives 'ref 23'";
    let mut other = Store::open(&file).unwrap();
    let checked = other.check().unwrap().wrong;
    let told = [store.wrong_answers(), other.wrong_answers(), &checked];
    assert!(told.iter().all(|told| told.len() == 1 && told[0].to_string() == wrong), "{told:?}");
    assert_eq!(other.latest().unwrap().rows(), 3);
    // Of a mark that is there it is what anybody could have stored.
    let file = room.file("other.db");
    let mut store = prepared(&file, &[]);
    store.set_mark("x".parse().unwrap()).unwrap();
    forged::drop_mark(&file, "x").unwrap();
    assert_eq!(store.drop_mark("x".parse().unwrap()), Err(Error::Refused(Refusal::MarkNotKept)));
    assert_eq!(rows_of(store.check()), Ok(2));
}

/// Has another process open the file, with at most 400 MB of memory and for at most twenty seconds.
fn opened_elsewhere(file: &Path) -> String {
    let mut command = Command::new("sh");
    command.args(["-c", "ulimit -v 400000; exec \"$0\" \"$1\" 0 0 0", env!("CARGO_BIN_EXE_writer")]).arg(file);
    let ran = run(&mut command, Duration::from_secs(20)).expect("it ends");
    assert!(!ran.well);
    ran.said
}

#[test]
fn an_endless_view() {
    let room = Scratch::new();
    let file = room.file("run.db");
    drop(Store::create(&file, 1, Capacity::Small).unwrap());
    let endless = "WITH RECURSIVE n (id) AS (SELECT 0 UNION ALL SELECT id + 1 FROM n) SELECT id, 1 AS rules FROM n";
    by_sql(&file, &["DROP TABLE log", &format!("CREATE VIEW log AS {endless}")]);
    let said = opened_elsewhere(&file);
    assert!(said.contains("log is not as it was made"), "{said}");
}

#[test]
fn a_huge_value() {
    let room = Scratch::in_memory();
    let file = room.file("run.db");
    drop(Store::create(&file, 1, Capacity::Small).unwrap());
    let insert = "INSERT INTO journal (seq, request, part, kind, input, answer, chain) \
                  VALUES (1, 1, 0, 11, zeroblob(500000000), 0, x'')";
    by_sql(&file, &[insert]);
    let said = opened_elsewhere(&file);
    assert!(said.contains("one of its values is larger than any of a log"), "{said}");
}
