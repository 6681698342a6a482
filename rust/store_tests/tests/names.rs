//! The names of a log's files: which file each leads to, while the log is open and before.

use cindrolf::{Capacity, value_of};
use std::fs;
use std::path::{Path, PathBuf};
use std::process::Command;
use std::time::Duration;
use store::{Error, Store, Stored};
use store_tests::kernel::with_file_system;
use store_tests::kinds::{changes, prepared};
use store_tests::program::{Ran, run};
use store_tests::scratch::Scratch;
use store_tests::skipped::skipped;

fn wal(file: &Path) -> PathBuf {
    file.with_extension("db-wal")
}

/// A log whose client 0 may write, with one write of 1.
fn written(file: &Path) -> Store {
    let mut store = prepared(file, &changes()[8].before);
    store.write(0, 1).unwrap();
    store
}

fn values(store: &mut Store) -> Vec<u64> {
    store.latest().unwrap().chain().unwrap().into_iter().map(value_of).collect()
}

/// Another process that opens the log, writes so often and closes it.
fn other_process(file: &Path, count: u64) -> Ran {
    let mut command = Command::new(env!("CARGO_BIN_EXE_writer"));
    command.arg(file).args(["0".into(), "100".into(), count.to_string()]);
    run(&mut command, Duration::from_secs(30)).expect("it ends")
}

// To close a file ends all locks that the process has on it. Then another process takes itself for the last.
#[test]
fn a_file_that_the_process_reads_itself() {
    let room = Scratch::new();
    let file = room.file("run.db");
    let mut store = written(&file);
    fs::read(&file).unwrap();
    assert!(other_process(&file, 0).well);
    assert!(!wal(&file).exists(), "the other process took itself for the last");
    let error = store.write(0, 2).unwrap_err();
    assert_eq!(error.stored(), Stored::Unknown, "{error}");
    assert!(error.to_string().contains("run.db-wal was removed or replaced"), "{error}");
    // The next call opens the log again, and sees what others have stored meanwhile.
    assert!(other_process(&file, 1).well);
    assert_eq!(values(&mut store), [1, 100]);
    store.write(0, 3).unwrap();
    assert_eq!(values(&mut Store::open(&file).unwrap()), [1, 100, 3]);
}

// What it has in its own write-ahead log, which has no name any more, is not copied over what others have stored.
#[test]
fn a_nameless_write_ahead_log() {
    let room = Scratch::new();
    let file = room.file("run.db");
    let mut store = written(&file);
    fs::read(&file).unwrap();
    assert!(other_process(&file, 3).well);
    assert!(!wal(&file).exists());
    assert_eq!(store.write(0, 2).unwrap_err().stored(), Stored::Unknown);
    drop(store);
    assert_eq!(values(&mut Store::open(&file).unwrap()), [1, 100, 101, 102]);
}

// Neither a refusal nor a reading is given from a log that is no longer that of the file.
#[test]
fn answers_from_a_nameless_write_ahead_log() {
    for (name, call) in [
        ("read", (|store| store.latest().map(drop)) as fn(&mut Store) -> Result<(), Error>),
        ("refuse", |store| store.write(1, 7).map(drop)),
        ("check", |store| store.check().map(drop)),
    ] {
        let room = Scratch::new();
        let file = room.file("run.db");
        let mut store = written(&file);
        fs::rename(wal(&file), room.file("elsewhere")).unwrap();
        let error = call(&mut store).unwrap_err();
        assert!(error.to_string().contains("run.db-wal was removed or replaced"), "{name}: {error}");
        assert_eq!(error.stored(), Stored::No, "{name}");
    }
}

#[test]
fn a_write_ahead_log_that_was_removed() {
    let room = Scratch::new();
    let file = room.file("run.db");
    let mut store = written(&file);
    assert_eq!(store.checkpoint(), Ok(true));
    store.write(0, 2).unwrap();
    fs::remove_file(wal(&file)).unwrap();
    assert_eq!(store.write(0, 3).unwrap_err().stored(), Stored::Unknown);
    // The second write is gone with the file that it was in, and the store that was told of it says so.
    for _ in 0..2 {
        let error = store.write(0, 4).unwrap_err();
        let why = "row 6 of its journal, which this process has read or stored, is missing or another";
        assert_eq!(error, Error::Damaged(why.into()));
    }
    assert_eq!(values(&mut Store::open(&file).unwrap()), [1]);
}

// All that the log has is still in the write-ahead log: without it the file is as one that is being created.
#[test]
fn a_log_that_is_gone() {
    let room = Scratch::new();
    let file = room.file("run.db");
    let mut store = written(&file);
    fs::remove_file(wal(&file)).unwrap();
    assert_eq!(store.write(0, 2).unwrap_err().stored(), Stored::Unknown);
    assert!(matches!(store.write(0, 3), Err(Error::Damaged(why)) if why.starts_with("nothing is left in it")));
}

#[test]
fn two_names() {
    let room = Scratch::new();
    let (file, other) = (room.file("run.db"), room.file("other.db"));
    let mut store = written(&file);
    fs::hard_link(&file, &other).unwrap();
    let refused = |error: Option<Error>| match error {
        Some(Error::Unfit(why)) => assert!(why.contains("it has 2 names (hard links)"), "{why}"),
        other => panic!("{other:?}"),
    };
    refused(store.write(0, 2).err());
    refused(store.latest().err());
    refused(Store::open(&file).err());
    refused(Store::open(&other).err());
    fs::remove_file(&other).unwrap();
    store.write(0, 3).unwrap();
    assert_eq!(values(&mut Store::open(&file).unwrap()), [1, 3]);
    let empty = room.file("empty.db");
    fs::write(&empty, "").unwrap();
    fs::hard_link(&empty, &other).unwrap();
    refused(Store::create(&empty, 1, Capacity::Small).err());
    assert_eq!(fs::read(&empty).unwrap(), b"");
}

// SQLite follows a symbolic link, and so both names have one write-ahead log.
#[test]
fn a_symbolic_link() {
    let room = Scratch::new();
    let (file, folder) = (room.file("run.db"), room.file("links"));
    fs::create_dir(&folder).unwrap();
    let link = folder.join("other.db");
    std::os::unix::fs::symlink(&file, &link).unwrap();
    let mut store = written(&file);
    let mut other = Store::open(&link).unwrap();
    for value in 2..6 {
        other.write(0, value).unwrap();
        store.write(0, value + 100).unwrap();
    }
    assert_eq!(other.checkpoint(), Ok(true));
    assert_eq!(values(&mut store), values(&mut other));
    assert_eq!(fs::read_dir(&folder).unwrap().count(), 1);
    drop((store, other));
    assert_eq!(fs::read_dir(room.folder()).unwrap().count(), 2);
}

// Only root may mount.
#[test]
fn a_file_that_is_mounted_by_itself() {
    let room = Scratch::new();
    let (file, other) = (room.file("run.db"), room.file("other.db"));
    drop(written(&file));
    fs::write(&other, "").unwrap();
    let script = "mount --bind \"$1\" \"$2\" || exit 77; for file in \"$1\" \"$2\"; do \"$3\" \"$file\" 0 100 1; done";
    let mut command = Command::new("unshare");
    command.args(["--mount", "--propagation", "private", "sh", "-c", script, "sh"]);
    command.arg(&file).arg(&other).arg(env!("CARGO_BIN_EXE_writer"));
    let ran = run(&mut command, Duration::from_secs(30)).expect("it ends");
    if !ran.well && !ran.said.contains("writer: ") {
        return skipped("a_file_that_is_mounted_by_itself", &format!("no file can be mounted here: {}", ran.said));
    }
    let refused = format!("it is mounted by itself as {}", other.display());
    assert_eq!(ran.said.matches(&refused).count(), 2, "{}", ran.said);
    assert_eq!(values(&mut Store::open(&file).unwrap()), [1]);
}

#[test]
fn a_network() {
    let room = Scratch::new();
    let (file, new) = (room.file("run.db"), room.file("new.db"));
    drop(written(&file));
    for (kind, name) in [(0x6969, "(NFS)"), (0xFF53_4D42, "(CIFS)"), (0x0102_1997, "(9P)")] {
        let refused = |error: Option<Error>| match error {
            Some(Error::Unfit(why)) => assert!(why.contains("a network's file system") && why.contains(name), "{why}"),
            other => panic!("{name}: {other:?}"),
        };
        with_file_system(kind, || {
            refused(Store::open(&file).err());
            refused(Store::create(&new, 1, Capacity::Small).err());
        });
        assert!(!new.exists());
    }
    // ext4, and what a process of this computer serves.
    for kind in [0xEF53, 0x6573_5546] {
        with_file_system(kind, || assert_eq!(Store::open(&file).err(), None));
    }
}

#[test]
fn a_long_path() {
    let room = Scratch::new();
    let folder = room.folder().join("x".repeat(200)).join("y".repeat(200));
    fs::create_dir_all(&folder).unwrap();
    let length = 504 - folder.as_os_str().len() - 1;
    let (fits, longer) = (folder.join("z".repeat(length)), folder.join("z".repeat(length + 1)));
    drop(written(&fits));
    fs::copy(&fits, &longer).unwrap();
    for error in [Store::open(&longer).err(), Store::create(folder.join("z".repeat(200)), 1, Capacity::Small).err()] {
        let error = error.expect("too long").to_string();
        assert!(error.starts_with("its path has "), "{error}");
        assert!(error.contains("SQLite opens none of more than 504"), "{error}");
    }
}
