//! A log that is being created while others open it, or take its name.

use cindrolf::Capacity;
use std::fs;
use std::sync::{Mutex, MutexGuard, PoisonError};
use std::time::Duration;
use store::{Error, Store};
use store_tests::calls::{before_write, delay_sync};
use store_tests::kinds::{changes, prepared};
use store_tests::scratch::Scratch;

/// One test at a time has calls be slow, or do more.
fn alone() -> MutexGuard<'static, ()> {
    static ALONE: Mutex<()> = Mutex::new(());
    let alone = ALONE.lock().unwrap_or_else(PoisonError::into_inner);
    delay_sync(Duration::ZERO);
    alone
}

// The steps of such a store would be in a file without a name.
#[test]
fn a_file_that_is_replaced() {
    let _alone = alone();
    let room = Scratch::new();
    let (file, other) = (room.file("run.db"), room.file("other.db"));
    drop(prepared(&other, &changes()[8].before));
    let names = (file.clone(), other);
    before_write(move || fs::rename(names.1, names.0).unwrap());
    assert_eq!(Store::create(&file, 2, Capacity::Large).map(drop), Err(Error::Replaced));
    fs::remove_file(file.with_extension("db-wal")).unwrap();
    assert_eq!(Store::open(&file).unwrap().latest().unwrap().rows(), 4);
}

// Each sync takes some milliseconds, so that the other comes upon every state of the file.
#[test]
fn opening_waits() {
    let _alone = alone();
    for number in 0..40_u64 {
        let room = Scratch::new();
        let file = room.file("run.db");
        delay_sync(Duration::from_millis(3));
        let opened = std::thread::scope(|scope| {
            let create = scope.spawn(|| Store::create(&file, 2, Capacity::Small).map(drop));
            while !file.exists() {
                std::hint::spin_loop();
            }
            std::thread::sleep(Duration::from_micros(200 * number));
            let opened = Store::open(&file).map(|mut store| store.name(1));
            create.join().unwrap().unwrap();
            opened
        });
        assert_eq!(opened, Ok(Ok(())), "{number}");
    }
    delay_sync(Duration::ZERO);
}

// An empty file that nobody works on is told from one that is being created, and soon.
#[test]
fn opening_does_not_wait_for_nobody() {
    let _alone = alone();
    let room = Scratch::new();
    let file = room.file("run.db");
    fs::write(&file, "").unwrap();
    let began = std::time::Instant::now();
    assert_eq!(Store::open(&file).err(), Some(Error::Unfinished));
    assert!(began.elapsed() < Duration::from_secs(5), "{:?}", began.elapsed());
}
