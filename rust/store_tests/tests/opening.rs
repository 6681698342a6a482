//! Opening and closing a log: what is on the disk then, and what prevents opening.

use cindrolf::{Capacity, value_of};
use std::fs;
use std::path::{Path, PathBuf};
use std::process::Command;
use store::database::{Database, Mode};
use store::{Error, PATIENCE, Store};
use store_tests::checked::rows_of;
use store_tests::kernel::failing_read;
use store_tests::kinds::{changes, prepared};
use store_tests::scratch::{Scratch, as_a_user};

/// A log with writes of 0 to 9.
fn written(file: &Path) -> Store {
    let mut store = prepared(file, &changes()[8].before);
    for value in 0..10 {
        store.write(0, value).unwrap();
    }
    store
}

fn values(store: &mut Store) -> Vec<u64> {
    store.latest().unwrap().chain().unwrap().into_iter().map(value_of).collect()
}

/// The files of a log, by what comes after its name.
fn files(file: &Path) -> Vec<&'static str> {
    ["", "-wal", "-shm"].into_iter().filter(|end| beside(file, end).exists()).collect()
}

fn beside(file: &Path, end: &str) -> PathBuf {
    let mut name = file.as_os_str().to_owned();
    name.push(end);
    name.into()
}

/// What the file holds without those beside it, as when somebody copies it alone. Another process does that: in this one
/// it would end the locks.
fn alone(file: &Path) -> Vec<u64> {
    let copy = file.with_file_name("alone.db");
    assert!(Command::new("cp").arg(file).arg(&copy).status().unwrap().success());
    let held = Store::open(&copy).map(|mut store| values(&mut store));
    fs::remove_file(copy).unwrap();
    held.unwrap_or_default()
}

#[test]
fn closing_leaves_one_file() {
    let room = Scratch::new();
    let file = room.file("run.db");
    let mut store = written(&file);
    assert_eq!(files(&file), ["", "-wal", "-shm"]);
    assert_eq!(values(&mut store).len(), 10);
    assert_eq!(store.close(), Ok(()));
    assert_eq!(files(&file), [""]);
    assert_eq!(alone(&file).len(), 10);
}

// Another process has the log open, and does nothing.
#[test]
fn closing_beside_an_idle_process() {
    let room = Scratch::new();
    let file = room.file("run.db");
    let store = written(&file);
    let mut idle = Store::open(&file).unwrap();
    drop(store);
    assert_eq!(files(&file), ["", "-wal", "-shm"]);
    assert_eq!(alone(&file).len(), 10);
    assert_eq!(values(&mut idle).len(), 10);
    drop(idle);
    assert_eq!(files(&file), [""]);
}

#[test]
fn a_checkpoint() {
    let room = Scratch::new();
    let file = room.file("run.db");
    let mut store = written(&file);
    // Nothing has been copied to the file yet, not even its tables.
    assert_eq!(alone(&file), []);
    assert_eq!(store.checkpoint(), Ok(true));
    assert_eq!(alone(&file).len(), 10);
    store.write(0, 10).unwrap();
    assert_eq!(alone(&file).len(), 10);
    // It does not wait for long.
    let other = Database::open(&file, Mode::Existing, PATIENCE).unwrap();
    other.execute("BEGIN IMMEDIATE").unwrap();
    assert_eq!(store.checkpoint(), Ok(false));
    other.execute("ROLLBACK").unwrap();
    assert_eq!(store.checkpoint(), Ok(true));
    // A copy has no write-ahead log until a step is taken on it.
    store.copy_to(room.file("copy.db")).unwrap();
    let mut copy = Store::open(room.file("copy.db")).unwrap();
    assert_eq!(copy.checkpoint(), Ok(true));
    assert_eq!(values(&mut copy).len(), 11);
}

// Steps of two processes go on beside checkpoints; nobody waits for long, and every write is there.
#[test]
fn checkpoints_beside_steps() {
    let room = Scratch::in_memory();
    let file = room.file("run.db");
    let mut store = written(&file);
    std::thread::scope(|scope| {
        scope.spawn(|| {
            let mut other = Store::open(&file).unwrap();
            for value in 0..1_000 {
                other.write(0, 10_000 + value).unwrap();
            }
        });
        for value in 10..1_000 {
            store.write(0, value).unwrap();
            if value % 50 == 0 {
                store.checkpoint().unwrap();
            }
        }
    });
    assert_eq!(values(&mut store).len(), 2_000);
    rows_of(store.check()).unwrap();
}

#[test]
fn to_read_only() {
    let room = Scratch::new();
    let file = room.file("run.db");
    drop(written(&file));
    let before = fs::read(&file).unwrap();
    let mut reader = Store::open_read_only(&file).unwrap();
    assert_eq!(values(&mut reader).len(), 10);
    assert_eq!(rows_of(reader.check()), Ok(14));
    assert_eq!(reader.write(0, 10), Err(Error::ReadOnly));
    assert_eq!(reader.set_mark("wash".parse().unwrap()), Err(Error::ReadOnly));
    assert_eq!(reader.checkpoint(), Err(Error::ReadOnly));
    assert_eq!(reader.close(), Ok(()));
    assert_eq!(fs::read(&file).unwrap(), before);
    // It follows those who write, and what they leave.
    let mut store = Store::open(&file).unwrap();
    let mut reader = Store::open_read_only(&file).unwrap();
    store.write(0, 10).unwrap();
    assert_eq!(values(&mut reader).len(), 11);
    drop(store);
    assert_eq!(values(&mut reader).len(), 11);
    drop(reader);
    assert_eq!(values(&mut Store::open(&file).unwrap()).len(), 11);
    assert_eq!(files(&file), [""]);
    assert_eq!(Store::open_read_only(room.file("none.db")).err(), Some(Error::Missing));
    assert!(!room.file("none.db").exists());
}

fn mode(path: &Path, mode: u32) {
    use std::os::unix::fs::PermissionsExt;
    fs::set_permissions(path, fs::Permissions::from_mode(mode)).unwrap();
}

// What another account has left beside the log is named.
#[test]
fn a_write_ahead_log_of_another_account() {
    let room = Scratch::new();
    let file = room.file("run.db");
    drop(written(&file));
    mode(&file, 0o666);
    mode(room.folder(), 0o777);
    let wal = beside(&file, "-wal");
    fs::write(&wal, "").unwrap();
    mode(&wal, 0o000);
    as_a_user(|| {
        let error = Store::open(&file).expect_err("a file that cannot be opened").to_string();
        assert!(error.contains("run.db-wal belongs to account ") && error.contains("with chown"), "{error}");
    });
    fs::remove_file(&wal).unwrap();
    fs::create_dir(&wal).unwrap();
    let error = Store::open(&file).expect_err("a folder").to_string();
    assert!(error.contains("run.db-wal is no file"), "{error}");
}

// Somebody puts a log there from elsewhere, and leaves the write-ahead log of the one that was there. The message names
// it, and all is left as it is.
#[test]
fn a_write_ahead_log_of_another_log() {
    let room = Scratch::new();
    let (file, other) = (room.file("run.db"), room.file("other.db"));
    let mut store = written(&file);
    assert_eq!(store.checkpoint(), Ok(true));
    for value in 10..20 {
        store.write(0, value).unwrap();
    }
    let wal = fs::read(beside(&file, "-wal")).unwrap();
    drop(Store::create(&other, 3, Capacity::Small).unwrap());
    let before = fs::read(&other).unwrap();
    fs::write(beside(&other, "-wal"), &wal).unwrap();
    for _ in 0..2 {
        match Store::open(&other).err() {
            Some(Error::Damaged(why)) => assert!(why.contains("other.db-wal stands beside it"), "{why}"),
            error => panic!("{error:?}"),
        }
        assert_eq!(fs::read(&other).unwrap(), before);
        assert_eq!(fs::read(beside(&other, "-wal")).unwrap(), wal);
    }
    fs::remove_file(beside(&other, "-wal")).unwrap();
    assert_eq!(rows_of(Store::open(&other).unwrap().check()), Ok(0));
}

// A disk from which one read fails: the check says that, and no more.
#[test]
fn a_read_that_fails() {
    let room = Scratch::new();
    let file = room.file("run.db");
    let mut store = written(&file);
    let mut other = Store::open(&file).unwrap();
    let mut number = 0;
    loop {
        // What this process has read before is not what the file holds now, so that it reads all of it.
        other.write(0, 1).unwrap();
        number += 1;
        let (checked, failed) = failing_read(number, || store.check());
        if !failed {
            break;
        }
        let error = checked.expect_err("a read failed").to_string();
        assert!(error.contains("the disk failed"), "read {number}: {error}");
    }
    assert!(number > 5, "{number}");
    rows_of(store.check()).unwrap();
}

#[test]
fn what_is_shown_of_it() {
    let room = Scratch::new();
    let file = room.file("run.db");
    let store = written(&file);
    let shown = format!("{store:?}");
    assert!(shown.starts_with("Store { path: ") && shown.contains("run.db\", rows: Some(14)"), "{shown}");
    let refused = std::error::Error::source(&Error::Refused(cindrolf::Refusal::LogFull)).unwrap().to_string();
    assert_eq!(refused, cindrolf::Refusal::LogFull.to_string());
    assert!(std::error::Error::source(&Error::Missing).is_none());
}
