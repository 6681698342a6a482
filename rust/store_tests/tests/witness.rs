//! The witness file of a controller, and waiting for rows.

use cindrolf::Capacity;
use std::fs;
use std::time::{Duration, Instant};
use store::{Error, Store};
use store_tests::kinds::{changes, prepared};
use store_tests::scratch::Scratch;

#[test]
fn a_log_that_lost_its_end() {
    let room = Scratch::in_memory();
    let (file, witness) = (room.file("run.db"), room.file("witness"));
    let mut store = prepared(&file, &changes()[8].before);
    store.keep_witness(&witness).unwrap();
    store.write(0, 1).unwrap();
    store.checkpoint().unwrap();
    store.copy_to(room.file("backup.db")).unwrap();
    for value in 0..3 {
        store.write(0, value).unwrap();
        let text = fs::read_to_string(&witness).unwrap();
        let last = store.last_row().unwrap().to_string();
        assert!(text.lines().any(|line| line.trim_end() == last), "{text}");
    }
    drop(store);
    // The log as it is.
    let mut store = Store::open(&file).unwrap();
    store.keep_witness(&witness).unwrap();
    store.write(0, 9).unwrap();
    drop(store);
    // The backup, in its place.
    fs::rename(room.file("backup.db"), &file).unwrap();
    let mut store = Store::open(&file).unwrap();
    let lost = Error::NotWitnessed("it ends at row 5, and the rows up to 9 are missing".into());
    assert_eq!(store.keep_witness(&witness), Err(lost));
    // Others go on with it, and then it is another log.
    for value in 0..10 {
        store.write(0, value + 100).unwrap();
    }
    let other = Error::NotWitnessed("row 9 of its journal is another one, or one before it is".into());
    assert_eq!(store.keep_witness(&witness), Err(other));
    let none = room.file("new");
    assert_eq!(store.keep_witness(&none), Ok(()));
}

// One line is whole at any moment.
#[test]
fn a_line_that_was_cut() {
    let room = Scratch::in_memory();
    let (file, witness) = (room.file("run.db"), room.file("witness"));
    let mut store = prepared(&file, &changes()[8].before);
    store.keep_witness(&witness).unwrap();
    store.write(0, 1).unwrap();
    store.write(0, 2).unwrap();
    drop(store);
    let whole = fs::read(&witness).unwrap();
    for line in 0..2 {
        for cut in [0, 1, 10, 40] {
            let mut bytes = whole.clone();
            bytes[64 * line + cut..64 * line + 63].fill(b'#');
            fs::write(&witness, &bytes).unwrap();
            Store::open(&file).unwrap().keep_witness(&witness).unwrap();
        }
    }
    fs::write(&witness, "something else").unwrap();
    let error = Store::open(&file).unwrap().keep_witness(&witness).unwrap_err().to_string();
    assert!(error.contains("the witness file cannot be used: it holds no row"), "{error}");
    let error = Store::open(&file).unwrap().keep_witness(room.folder()).unwrap_err().to_string();
    assert!(error.contains("the witness file cannot be used"), "{error}");
}

#[test]
fn waiting_for_rows() {
    let room = Scratch::in_memory();
    let file = room.file("run.db");
    let mut store = Store::create(&file, 2, Capacity::Large).unwrap();
    let mut other = Store::open(&file).unwrap();
    let soon = || Instant::now() + Duration::from_millis(50);
    assert_eq!(store.changed(soon()), Ok(false));
    // Its own rows are none that it waits for.
    store.name(1).unwrap();
    assert_eq!(store.changed(soon()), Ok(false));
    assert_eq!(other.changed(Instant::now()), Ok(true));
    other.latest().unwrap();
    assert_eq!(other.changed(soon()), Ok(false));
    std::thread::scope(|scope| {
        let waiting = scope.spawn(|| {
            let began = Instant::now();
            let changed = other.changed(began + Duration::from_secs(20));
            (changed, began.elapsed())
        });
        std::thread::sleep(Duration::from_millis(300));
        store.name(0).unwrap();
        let (changed, took) = waiting.join().unwrap();
        assert_eq!(changed, Ok(true));
        assert!(took >= Duration::from_millis(250) && took < Duration::from_secs(5), "{took:?}");
    });
    fs::remove_file(&file).unwrap();
    assert_eq!(store.changed(soon()), Err(Error::Replaced));
}

// A process that waits sleeps nearly all of the time.
#[test]
fn waiting_costs_little() {
    let room = Scratch::in_memory();
    let mut store = Store::create(room.file("run.db"), 2, Capacity::Large).unwrap();
    let ticks = || {
        let stat = fs::read_to_string("/proc/thread-self/stat").unwrap();
        let rest = stat.rsplit_once(')').unwrap().1;
        let numbers: Vec<i64> = rest.split_whitespace().filter_map(|word| word.parse().ok()).collect();
        numbers[10] + numbers[11]
    };
    let before = ticks();
    assert_eq!(store.changed(Instant::now() + Duration::from_secs(2)), Ok(false));
    // Of 200 hundredths of a second.
    assert!(ticks() - before <= 20, "{}", ticks() - before);
}
