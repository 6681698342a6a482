//! Copies when the power fails, and on a file system without a rename that keeps existing names.

use model::random::Random;
use std::fs;
use std::os::unix::fs::MetadataExt;
use std::sync::{Mutex, PoisonError};
use store::{Error, Store};
use store_tests::calls::{Done, What, traced, without_rename};
use store_tests::checked::rows_of;
use store_tests::crash::{Disk, Loss};
use store_tests::kinds::{changes, prepared};
use store_tests::scratch::Scratch;

/// One test at a time changes what calls do.
static ALONE: Mutex<()> = Mutex::new(());

/// What is done to files while a copy is made.
fn copied(room: &Scratch) -> Vec<Done> {
    let mut store = prepared(&room.file("run.db"), &changes()[8].before);
    traced(|done| {
        store.copy_to(room.file("copy.db")).unwrap();
        done()
    })
}

/// The power fails after each event: the copy is whole or not there; and at the end, it is there.
fn after_each(room: &Scratch, events: &[Done]) -> Result<(), String> {
    let (mut disk, mut random, left) = (Disk::empty(room.folder()), Random::new(1), room.file("left.db"));
    for (number, done) in events.iter().enumerate() {
        disk.follow(done);
        for loss in [&[Loss::All, Loss::None][..], &[Loss::Some; 20]].concat() {
            let files = disk.after(loss, &mut random);
            let Some(bytes) = files.get(&room.file("copy.db")) else { continue };
            fs::write(&left, bytes).unwrap();
            let rows = Store::open(&left).and_then(|mut store| rows_of(store.check()));
            if rows != Ok(4) {
                return Err(format!("event {number}, {loss:?} lost: {rows:?}"));
            }
        }
    }
    let there = disk.after(Loss::All, &mut random).contains_key(&room.file("copy.db"));
    if there { Ok(()) } else { Err("the copy is not there".into()) }
}

// With two controls: the copy is not synced before it is renamed, and its folder is not synced after that.
#[test]
fn the_power_fails() {
    let _alone = ALONE.lock().unwrap_or_else(PoisonError::into_inner);
    let room = Scratch::in_memory();
    let events = copied(&room);
    after_each(&room, &events).unwrap();
    let renamed = events.iter().position(|done| matches!(done.what, What::Renamed(_))).unwrap();
    let part = &events[renamed].file;
    let wrong: Vec<_> = events.iter().filter(|done| done.file != *part || done.what != What::Synced).cloned().collect();
    let why = after_each(&room, &wrong).unwrap_err();
    assert!(why.starts_with("event "), "{why}");
    assert_eq!(after_each(&room, &events[..=renamed]), Err("the copy is not there".into()));
}

#[test]
fn a_plain_rename() {
    let _alone = ALONE.lock().unwrap_or_else(PoisonError::into_inner);
    let room = Scratch::new();
    let (file, copy, taken) = (room.file("run.db"), room.file("copy.db"), room.file("taken.db"));
    let mut store = prepared(&file, &changes()[8].before);
    fs::write(&taken, "mine").unwrap();
    without_rename(|| {
        store.copy_to(&copy).unwrap();
        assert_eq!(store.copy_to(&copy), Err(Error::Exists));
        assert_eq!(store.copy_to(&taken), Err(Error::Exists));
    });
    assert_eq!(fs::read_to_string(&taken).unwrap(), "mine");
    assert_eq!(fs::metadata(&copy).unwrap().nlink(), 1);
    assert_eq!(rows_of(Store::open(&copy).unwrap().check()), Ok(4));
    drop(store);
    let mut names: Vec<_> = fs::read_dir(room.folder()).unwrap().map(|file| file.unwrap().file_name()).collect();
    names.sort();
    assert_eq!(names, ["copy.db", "run.db", "taken.db"]);
}
