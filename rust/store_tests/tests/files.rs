//! Files that are no log, or no longer one: each is refused, and not changed.

use cindrolf::{Capacity, Right, Step};
use model::random::Random;
use std::fs;
use std::path::Path;
use store::database::{Database, Mode, Value};
use store::{Error, PATIENCE, Store, Stored};
use store_tests::checked::rows_of;
use store_tests::forged;
use store_tests::kinds::{changes, prepared};
use store_tests::scratch::{Scratch, as_a_user};

/// A log with every kind of row, in one file.
fn all_kinds(file: &Path) -> i64 {
    let mut store = Store::create(file, 3, Capacity::Small).unwrap();
    let lead = [Step::BECOME, Step::FETCH, Step::CREATE, Step::APPEND];
    for step in lead.into_iter().chain((0..5).map(|value| Step::write(value * 1_000_003))) {
        let _ = store.take(0, step).unwrap();
    }
    store.write_scores(0, &[40, 372]).unwrap();
    store.set_mark("wash".parse().unwrap()).unwrap();
    store.set_mark("elution".parse().unwrap()).unwrap();
    store.drop_mark("wash".parse().unwrap()).unwrap();
    store.revoke(2, Right::Name).unwrap();
    let steps = [Step::NAME, Step::BECOME, Step::FETCH, Step::CLOSE_LAST, Step::FINISH, Step::CREATE, Step::APPEND];
    for step in steps.into_iter().chain([Step::write(7), Step::CLOSE_OWN]) {
        let _ = store.take(1, step).unwrap();
    }
    let _ = store.take(0, Step::CLOSE_OWN).unwrap();
    let rows = rows_of(store.check()).unwrap();
    drop(store);
    assert!(!file.with_extension("db-wal").exists());
    rows
}

/// Whether a file is refused; where it is, no byte of it has changed.
fn refused(file: &Path) -> Result<i64, Error> {
    let before = fs::read(file).unwrap();
    let result = Store::open(file).and_then(|mut store| rows_of(store.check()));
    if result.is_err() {
        assert!(fs::read(file).unwrap() == before, "a refused file was changed");
    }
    result
}

/// All that SQLite reads in the file.
fn content(file: &Path) -> Result<Vec<String>, store::Fault> {
    let database = Database::open(file, Mode::Existing, PATIENCE)?;
    let mut lines = Vec::new();
    for table in ["sqlite_schema", "log", "journal"] {
        database.prepare(&format!("SELECT * FROM {table} ORDER BY 1, 2"))?.each(&[], |row| {
            // The last three columns of a row are for people, and nothing looks at them.
            lines.push(format!("{table} {:?}", (0..9).map(|column| row.value(column)).collect::<Vec<Value<'_>>>()));
            Ok::<(), store::Fault>(())
        })?;
    }
    Ok(lines)
}

#[test]
fn no_logs() {
    let room = Scratch::new();
    let file = room.file("x");
    assert_eq!(Store::open(&file).err(), Some(Error::Missing));
    assert_eq!(Store::open(room.folder()).err(), Some(Error::NoLog("it is a folder".into())));
    assert_eq!(Store::create(room.folder(), 1, Capacity::Large).err(), Some(Error::Exists));
    fs::write(&file, "a text that is no database, and long enough to have the header of one".repeat(9)).unwrap();
    assert_eq!(refused(&file), Err(Error::NoLog("it is no SQLite file".into())));
    assert_eq!(Store::create(&file, 1, Capacity::Large).err(), Some(Error::Exists));
    let other = room.file("other.db");
    Database::open(&other, Mode::Create, PATIENCE).unwrap().execute("CREATE TABLE t (x)").unwrap();
    let before = fs::read(&other).unwrap();
    assert!(matches!(refused(&other), Err(Error::NoLog(why)) if why.starts_with("its application id is 0")));
    assert_eq!(Store::create(&other, 1, Capacity::Large).err(), Some(Error::Exists));
    assert_eq!(fs::read(&other).unwrap(), before);
    for clients in [0, 17] {
        let none = Store::create(room.file("none.db"), clients, Capacity::Large).err();
        assert_eq!(none, Some(Error::Refused(cindrolf::Refusal::ClientCount)));
        assert!(!room.file("none.db").exists());
    }
}

#[test]
fn other_versions() {
    let room = Scratch::new();
    let file = room.file("run.db");
    all_kinds(&file);
    let set = |text: &str| Database::open(&file, Mode::Existing, PATIENCE).unwrap().execute(text).unwrap();
    set("PRAGMA user_version = 2");
    assert!(matches!(refused(&file), Err(Error::NoLog(why)) if why == "its user version is 2, and not 100"));
    set("PRAGMA user_version = 100");
    set("PRAGMA application_id = 7");
    assert!(matches!(refused(&file), Err(Error::NoLog(why)) if why.starts_with("its application id is 7")));
}

#[test]
fn a_creation_that_was_not_finished() {
    let room = Scratch::new();
    let (empty, begun) = (room.file("empty.db"), room.file("begun.db"));
    fs::write(&empty, "").unwrap();
    let database = Database::open(&begun, Mode::Create, PATIENCE).unwrap();
    database.text("PRAGMA journal_mode = WAL").unwrap();
    drop(database);
    for file in [empty, begun] {
        assert_eq!(Store::open(&file).err(), Some(Error::Unfinished));
        assert_eq!(Store::create(&file, 2, Capacity::Small).unwrap().name(1), Ok(()));
        assert_eq!(rows_of(Store::open(&file).unwrap().check()), Ok(1));
    }
}

/// Runs a statement on a copy of the file, past the triggers, and has it checked.
fn changed(file: &Path, room: &Scratch, statement: &str) -> Result<i64, Error> {
    let copy = room.file("changed.db");
    fs::copy(file, &copy).unwrap();
    let database = Database::open(&copy, Mode::Existing, PATIENCE).unwrap();
    let triggers = ["journal_is_not_changed", "journal_is_not_shortened"];
    let text =
        |name: &str| database.text(&format!("SELECT sql FROM sqlite_schema WHERE name = '{name}'")).unwrap().unwrap();
    let kept = triggers.map(text);
    for name in triggers {
        database.execute(&format!("DROP TRIGGER {name}")).unwrap();
    }
    database.execute(statement).unwrap();
    for text in kept {
        database.execute(&text).unwrap();
    }
    drop(database);
    refused(&copy)
}

#[test]
fn rows_that_do_not_hold_together() {
    let room = Scratch::new();
    let file = room.file("run.db");
    let rows = all_kinds(&file);
    assert_eq!(changed(&file, &room, "SELECT 1"), Ok(rows));
    let damaged = |statement: &str, says: &str| match changed(&file, &room, statement) {
        Err(Error::Damaged(why)) => assert!(why.contains(says), "{statement}: {why}"),
        other => panic!("{statement}: {other:?}"),
    };
    damaged("DELETE FROM journal WHERE seq = 4", "row 4 of its journal is missing");
    damaged("UPDATE journal SET client = 1 WHERE seq = 5", "row 5 of its journal was changed");
    damaged("UPDATE journal SET kind = 14 WHERE seq = 5", "row 5 of its journal is none");
    damaged("UPDATE journal SET input = x'00' WHERE kind = 11", "was changed");
    damaged("DELETE FROM log", "its table log has no row");
    for changed in ["client_count = 2", "entry_words = 4096", "chain = x'00'"] {
        damaged(&format!("UPDATE log SET {changed}"), "its table log was changed");
    }
    damaged("UPDATE journal SET request = request + 1 WHERE seq = 5", "row 5 of its journal was changed");
    damaged("UPDATE journal SET part = 1 WHERE seq = 5", "row 5 of its journal was changed");
    damaged("DROP VIEW chain", "it has no chain");
    damaged("CREATE TABLE t (x)", "t is not as it was made");
    // The triggers keep a journal from being changed by mistake.
    let database = Database::open(&file, Mode::Existing, PATIENCE).unwrap();
    let fault = database.execute("UPDATE journal SET client = 1").unwrap_err();
    assert_eq!(fault.message, "the journal of a run log is not changed");
    assert!(database.execute("DELETE FROM journal").is_err());
}

/// The numbers of row 0, with what is stored beside them.
fn row_0(numbers: [u64; 3]) -> String {
    let bytes: Vec<u8> = numbers.into_iter().flat_map(u64::to_be_bytes).collect();
    let chain: String = digest::sha256(&bytes)[..16].iter().map(|byte| format!("{byte:02x}")).collect();
    let [rules, clients, words] = numbers;
    format!("UPDATE log SET rules = {rules}, client_count = {clients}, entry_words = {words}, chain = x'{chain}'")
}

// A row 0 that holds together: of another log, of other rules, or of none.
#[test]
fn other_beginnings() {
    let room = Scratch::new();
    let file = room.file("run.db");
    let rows = all_kinds(&file);
    assert_eq!(changed(&file, &room, &row_0([1, 3, 512])), Ok(rows));
    let other = changed(&file, &room, &row_0([1, 4, 512]));
    assert_eq!(other, Err(Error::Damaged("row 1 of its journal was changed".into())));
    let rules = "it goes by version 2 of the rules, and this library by 1";
    assert_eq!(changed(&file, &room, &row_0([2, 3, 512])), Err(Error::NoLog(rules.into())));
    let none = "no log has 3 clients and 100 entry words";
    assert_eq!(changed(&file, &room, &row_0([1, 3, 100])), Err(Error::Damaged(none.into())));
    let none = "no log has 17 clients and 512 entry words";
    assert_eq!(changed(&file, &room, &row_0([1, 17, 512])), Err(Error::Damaged(none.into())));
}

// Rows whose chain values are right: what anybody could have asked for is a row, and refused in its place it changes
// nothing. Only an answer that is not the log's is reported.
#[test]
fn rows_that_nobody_stored() {
    let room = Scratch::new();
    let file = room.file("run.db");
    let row = |kind, client, answer| {
        let _ = fs::remove_file(&file);
        drop(Store::create(&file, 2, Capacity::Large).unwrap());
        forged::add(&file, [7 << 32, 0, kind, client], Value::Null, &[], answer).unwrap();
        let mut store = Store::open(&file).unwrap();
        let named = store.latest().unwrap().view().unwrap().named_leader();
        (named, store.check().unwrap().wrong.iter().map(ToString::to_string).collect::<Vec<_>>())
    };
    assert_eq!(row(0, 1, 0), (1, vec![]));
    assert_eq!(row(0, 0, 256 + 4), (0, vec![]));
    assert_eq!(row(0, 99, 256 + 3), (0, vec![]));
    assert_eq!(row(0, 0, 0), (0, vec!["row 1 of forger has the answer 'ok', and the log gives 'ref 4'".into()]));
    assert_eq!(row(0, 1, 77), (1, vec!["row 1 of forger has the answer 'number 77', and the log gives 'ok'".into()]));
}

// Any bit of any number or bytes of a row.
#[test]
fn single_bits_of_rows() {
    let room = Scratch::new();
    let file = room.file("run.db");
    let rows = all_kinds(&file) as u64;
    let columns = ["request", "part", "kind", "client", "input"];
    let mut random = Random::new(1);
    let mut found = 0;
    while found < 300 {
        let (row, column) = (random.between(1, rows), random.pick(&columns));
        let bit = 1_u64 << random.below(64);
        let where_it_is = format!("seq = {row} AND typeof({column}) = 'integer'");
        let database = Database::open(&file, Mode::Existing, PATIENCE).unwrap();
        let there = database.number(&format!("SELECT count(*) FROM journal WHERE {where_it_is}")).unwrap();
        drop(database);
        if there == Some(1) {
            let flip = format!("({column} | {0}) - ({column} & {0})", bit as i64);
            let result = changed(&file, &room, &format!("UPDATE journal SET {column} = {flip} WHERE {where_it_is}"));
            assert!(matches!(result, Err(Error::Damaged(_))), "bit {bit:#x} of {column} in row {row}: {result:?}");
            found += 1;
        }
    }
}

// Any bit of the file: it is found, or what SQLite reads is the same.
#[test]
fn single_bits_of_the_file() {
    let room = Scratch::new();
    let file = room.file("run.db");
    let rows = all_kinds(&file);
    let (whole, before) = (fs::read(&file).unwrap(), content(&file).unwrap());
    let mut random = Random::new(2);
    let (mut found, copy) = (0, room.file("flipped.db"));
    for _ in 0..600 {
        let (at, bit) = (random.below(whole.len() as u64) as usize, random.below(8));
        let mut bytes = whole.clone();
        bytes[at] ^= 1 << bit;
        for suffix in ["db-wal", "db-shm", "db-journal"] {
            let _ = fs::remove_file(copy.with_extension(suffix));
        }
        fs::write(&copy, &bytes).unwrap();
        match refused(&copy) {
            Err(_) => found += 1,
            Ok(count) => {
                assert_eq!(count, rows, "bit {bit} of byte {at}");
                assert!(content(&copy).unwrap() == before, "bit {bit} of byte {at}");
            }
        }
    }
    assert!(found > 100, "{found} of 600 were found");
}

#[test]
fn a_file_cut_short() {
    let room = Scratch::new();
    let file = room.file("run.db");
    all_kinds(&file);
    let whole = fs::read(&file).unwrap();
    let copy = room.file("cut.db");
    for length in (1..whole.len()).step_by(1_021) {
        fs::write(&copy, &whole[..length]).unwrap();
        assert!(refused(&copy).is_err(), "{length} of {} bytes", whole.len());
        for suffix in ["db-wal", "db-shm"] {
            let _ = fs::remove_file(copy.with_extension(suffix));
        }
    }
}

// A killed writer leaves its write-ahead log: what was acknowledged is in it. Cut short, it leaves a first part of the
// steps.
#[test]
fn a_leftover_write_ahead_log() {
    let room = Scratch::new();
    let file = room.file("run.db");
    let mut store = prepared(&file, &changes()[8].before);
    for value in 0..50 {
        store.write(0, value).unwrap();
    }
    let log = fs::read(file.with_extension("db-wal")).unwrap();
    let copy = room.file("left.db");
    let mut last = 0;
    for length in (0..=log.len()).rev().step_by(5_003) {
        fs::copy(&file, &copy).unwrap();
        fs::write(copy.with_extension("db-wal"), &log[..length]).unwrap();
        let left = match Store::open(&copy) {
            Ok(mut left) => rows_of(left.check()).unwrap(),
            // Its creation is the first that the write-ahead log has.
            Err(Error::Unfinished) => 0,
            Err(error) => panic!("{length} of {} bytes: {error}", log.len()),
        };
        assert!(if length == log.len() { left == 54 } else { left <= last }, "{length} bytes left {left} rows");
        last = left;
        let _ = fs::remove_file(copy.with_extension("db-shm"));
    }
    assert_eq!(last, 0);
    rows_of(store.check()).unwrap();
}

fn mode(path: &Path, mode: u32) {
    use std::os::unix::fs::PermissionsExt;
    fs::set_permissions(path, fs::Permissions::from_mode(mode)).unwrap();
}

#[test]
fn a_read_only_file() {
    let room = Scratch::new();
    let file = room.file("run.db");
    let rows = all_kinds(&file);
    mode(&file, 0o444);
    mode(room.folder(), 0o777);
    as_a_user(|| {
        let mut store = Store::open(&file).unwrap();
        assert_eq!(store.latest().unwrap().rows(), rows);
        let error = store.name(0).unwrap_err();
        assert_eq!(error.stored(), Stored::No);
        assert!(error.to_string().starts_with("not stored: the file or its folder cannot be written"), "{error}");
        assert_eq!(store.latest().unwrap().rows(), rows);
    });
}

// A log that others write keeps two files beside it, and cannot be read where they cannot be; a copy is one file.
#[test]
fn a_read_only_folder() {
    let room = Scratch::new();
    let (file, copy) = (room.file("run.db"), room.file("copy.db"));
    let rows = all_kinds(&file);
    Store::open(&file).unwrap().copy_to(&copy).unwrap();
    mode(room.folder(), 0o555);
    as_a_user(|| {
        let error = Store::open(&file).expect_err("no folder to write in");
        assert!(error.to_string().contains("the file or its folder cannot be written"), "{error}");
        let mut store = Store::open(&copy).unwrap();
        assert_eq!(rows_of(store.check()), Ok(rows));
        assert_eq!(store.name(0).unwrap_err().stored(), Stored::No);
        assert!(Store::create(room.file("new.db"), 1, Capacity::Large).is_err());
    });
    mode(room.folder(), 0o755);
    assert!(!room.file("new.db").exists());
}

// SQLite itself goes on writing to a file that was removed.
#[test]
fn a_file_that_was_replaced() {
    let room = Scratch::new();
    let file = room.file("run.db");
    let mut store = prepared(&file, &changes()[8].before);
    fs::remove_file(&file).unwrap();
    assert_eq!(store.write(0, 1), Err(Error::Replaced));
    drop(Store::create(&file, 2, Capacity::Large).unwrap());
    for _ in 0..2 {
        assert_eq!(store.write(0, 1), Err(Error::Replaced));
        assert_eq!(store.latest().err(), Some(Error::Replaced));
    }
    assert_eq!(Store::open(&file).unwrap().latest().unwrap().rows(), 0);
}

#[test]
fn a_copy_while_others_write() {
    let room = Scratch::new();
    let (file, copy) = (room.file("run.db"), room.file("copy.db"));
    let mut store = prepared(&file, &changes()[8].before);
    let end = std::sync::atomic::AtomicBool::new(false);
    std::thread::scope(|scope| {
        scope.spawn(|| {
            let mut other = Store::open(&file).unwrap();
            for value in 0.. {
                if end.load(std::sync::atomic::Ordering::Relaxed) || other.write(0, value).is_err() {
                    break;
                }
            }
        });
        while store.latest().unwrap().rows() < 50 {}
        store.copy_to(&copy).unwrap();
        assert_eq!(store.copy_to(&copy), Err(Error::Exists));
        end.store(true, std::sync::atomic::Ordering::Relaxed);
    });
    let mut copied = Store::open(&copy).unwrap();
    let rows = rows_of(copied.check()).unwrap();
    assert!((50..=store.latest().unwrap().rows()).contains(&rows));
    // It is a log that goes on from there.
    assert_eq!(copied.write(0, 1).unwrap().number.0 as i64, rows - 4);
    let names: Vec<_> = fs::read_dir(room.folder()).unwrap().map(|file| file.unwrap().file_name()).collect();
    assert!(names.iter().all(|name| !name.to_string_lossy().contains("part")), "{names:?}");
}
