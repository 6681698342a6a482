//! Files of the earlier format: read and upgraded.

use cindrolf::{Answer, value_of};
use std::fs;
use std::path::{Path, PathBuf};
use store::database::{Database, Mode};
use store::{Error, PATIENCE, Store};
use store_tests::checked::rows_of;
use store_tests::scratch::Scratch;

/// A copy of one of the files, since opening one leaves files beside it.
fn old(room: &Scratch, name: &str) -> PathBuf {
    let file = room.file(name);
    fs::copy(Path::new(env!("CARGO_MANIFEST_DIR")).join("old").join(name), &file).unwrap();
    file
}

/// The files, each with its rows and its run total as the earlier version told them.
const FILES: [(&str, i64, &str); 3] =
    [("empty.db", 0, "0.000000000000"), ("kinds.db", 24, "0.100010000538"), ("handovers.db", 1_118, "15.600000116800")];

/// The values that `handovers.db` was given.
fn handovers() -> Vec<u64> {
    (0..40).flat_map(|turn| (0..20).map(move |value| turn * 1_000_000_007 + value)).collect()
}

#[test]
fn read_as_they_are() {
    let room = Scratch::in_memory();
    for (name, rows, total) in FILES {
        let file = old(&room, name);
        let before = fs::read(&file).unwrap();
        for open in [Store::open, Store::open_read_only] {
            let mut store = open(&file).unwrap();
            assert_eq!(rows_of(store.check()), Ok(rows), "{name}");
            assert_eq!(store.latest().unwrap().total().unwrap().to_string(), total);
        }
        let mut store = Store::open(&file).unwrap();
        for _ in 0..2 {
            assert_eq!(store.name(if rows == 0 { 5 } else { 2 }), refusal_or_old(name));
            assert_eq!(store.set_mark("new".parse().unwrap()), Err(Error::OldFormat));
        }
        drop(store);
        assert!(fs::read(&file).unwrap() == before, "{name} was changed");
    }
    let mut store = Store::open(old(&room, "handovers.db")).unwrap();
    let values: Vec<u64> = store.latest().unwrap().chain().unwrap().into_iter().map(value_of).collect();
    assert_eq!(values, handovers());
}

/// A step that the log refuses is refused; another would be stored, and the file is only read.
fn refusal_or_old(name: &str) -> Result<(), Error> {
    match name {
        "empty.db" => Err(Error::Refused(cindrolf::Refusal::UnknownClient)),
        // Its client 2 has no right to it.
        "kinds.db" => Err(Error::Refused(cindrolf::Refusal::MissingRight)),
        _ => Err(Error::OldFormat),
    }
}

#[test]
fn upgraded() {
    let room = Scratch::in_memory();
    for (name, rows, total) in FILES {
        let (file, new) = (old(&room, name), room.file(&format!("new-{name}")));
        let before = fs::read(&file).unwrap();
        let mut store = Store::open(&file).unwrap();
        store.upgrade_to(&new).unwrap();
        assert_eq!(store.upgrade_to(&new), Err(Error::Exists));
        let mut upgraded = Store::open(&new).unwrap();
        assert_eq!(rows_of(upgraded.check()), Ok(rows));
        assert_eq!(upgraded.latest().unwrap().total().unwrap().to_string(), total);
        let (one, other) = (store.latest().unwrap(), upgraded.latest().unwrap());
        assert_eq!((one.log().state(), one.log().entries()), (other.log().state(), other.log().entries()));
        assert_eq!((one.marks(), one.rights(), one.last_row()), (other.marks(), other.rights(), other.last_row()));
        // It goes on from there, and there is nothing more to upgrade.
        assert_eq!(upgraded.set_mark("new".parse().unwrap()), Ok(()));
        assert_eq!(upgraded.upgrade_to(room.file("third.db")), Err(Error::UpToDate));
        drop(store);
        assert!(fs::read(&file).unwrap() == before, "{name} was changed");
        assert!(!room.file("third.db").exists());
    }
    let names: Vec<_> = fs::read_dir(room.folder()).unwrap().map(|file| file.unwrap().file_name()).collect();
    assert!(names.iter().all(|name| !name.to_string_lossy().contains("part")), "{names:?}");
    let mut upgraded = Store::open(room.file("new-handovers.db")).unwrap();
    assert_eq!(upgraded.take(8, cindrolf::Step::BECOME), Ok(Answer::Done));
}

// What the earlier version would have found is found.
#[test]
fn damaged() {
    let room = Scratch::in_memory();
    let file = old(&room, "kinds.db");
    let database = Database::open(&file, Mode::Existing, PATIENCE).unwrap();
    let triggers = ["journal_is_not_changed", "journal_is_not_shortened"];
    for name in triggers {
        database.execute(&format!("DROP TRIGGER {name}")).unwrap();
    }
    drop(database);
    let whole = fs::read(&file).unwrap();
    let changes = [
        ("UPDATE journal SET input = input + 1 WHERE seq = 7", "row 7 of its journal was changed"),
        ("UPDATE journal SET word2 = word2 + 1 WHERE seq = 7", "row 7 of its journal was changed"),
        ("DELETE FROM journal WHERE seq = 9", "row 10 of its journal was changed"),
        ("UPDATE journal SET kind = 14 WHERE seq = 3", "row 3 of its journal is none"),
    ];
    for (statement, says) in changes {
        fs::write(&file, &whole).unwrap();
        Database::open(&file, Mode::Existing, PATIENCE).unwrap().execute(statement).unwrap();
        match Store::open(&file).map(drop) {
            Err(Error::Damaged(why)) => assert!(why.contains(says), "{statement}: {why}"),
            other => panic!("{statement}: {other:?}"),
        }
    }
}
