//! A disk on which one call fails, or which is full: no step is half stored, and the next one works.

use cindrolf::{Capacity, Refusal, Step};
use std::collections::BTreeMap;
use std::path::Path;
use std::sync::{Mutex, MutexGuard, PoisonError};
use store::database::{Database, Mode};
use store::{Error, PATIENCE, Store, Stored};
use store_tests::calls::{counted, failing, limit_size};
use store_tests::checked::rows_of;
use store_tests::kinds::{Change, changes, prepared};
use store_tests::scratch::Scratch;

/// One test at a time has calls fail.
fn alone() -> MutexGuard<'static, ()> {
    static ALONE: Mutex<()> = Mutex::new(());
    let alone = ALONE.lock().unwrap_or_else(PoisonError::into_inner);
    limit_size(0);
    alone
}

/// Everything that a file holds, and how many rows: what a reader is told.
fn held(store: &mut Store) -> (i64, Vec<u64>, Vec<u64>, Vec<u64>, Vec<u64>) {
    let latest = store.latest().expect("a log to read");
    let (log, marks, rights) = (latest.log(), latest.marks().to_vec(), latest.rights().words().to_vec());
    (latest.rows(), log.state().to_vec(), log.entries().to_vec(), marks, rights)
}

/// The files as a killed process would leave them, opened elsewhere.
fn left_behind(file: &Path, room: &Scratch, number: u64) -> Store {
    let copy = room.file(&format!("left-{number}.db"));
    std::fs::copy(file, &copy).unwrap();
    let beside = |file: &Path| file.with_extension("db-wal");
    if beside(file).exists() {
        std::fs::copy(beside(file), beside(&copy)).unwrap();
    }
    Store::open(&copy).expect("a log")
}

/// Has each call of a change fail once, on a log that is made anew each time. Says how many calls there were.
fn each_call(change: &Change, more: &[(u64, Step)]) -> u64 {
    let before_it: Vec<_> = change.before.iter().chain(more).copied().collect();
    let room = Scratch::in_memory();
    let mut whole = prepared(&room.file("whole.db"), &before_it);
    let before = held(&mut whole);
    let (made, calls) = counted(|| (change.make)(&mut whole));
    assert_eq!(made, Ok(()), "{}", change.name);
    let after = held(&mut whole);
    assert_ne!(before, after);
    assert!(calls > 0, "{}", change.name);
    for number in 1..=calls {
        let name = format!("call {number} of {}", change.name);
        let file = room.file(&format!("{number}.db"));
        let mut store = prepared(&file, &before_it);
        let (made, _) = failing(number, || (change.make)(&mut store));
        let left = held(&mut left_behind(&file, &room, number));
        let now = held(&mut store);
        for found in [&left, &now] {
            assert!(*found == before || *found == after, "{name}: half of it is stored");
        }
        assert!(left == now, "{name}: where all processes are killed now, another log is left than who looks is shown");
        match made {
            Ok(()) => assert!(left == after && now == after, "{name}: acknowledged, and not there"),
            Err(error) if error.stored() == Stored::No => assert!(left == before && now == before, "{name}: {error}"),
            Err(error) => assert!(matches!(error, Error::Engine { .. }), "{name}: {error}"),
        }
        if now == before {
            assert_eq!((change.make)(&mut store), Ok(()), "after {name}");
        }
        assert_eq!(held(&mut store), after, "after {name}");
        assert_eq!(rows_of(store.check()), Ok(after.0), "after {name}");
        // Once it is stored, nothing of the first try comes back.
        assert_eq!(held(&mut left_behind(&file, &room, calls + number)), after, "left after {name}");
    }
    calls
}

#[test]
fn one_call_fails() {
    let _alone = alone();
    for change in changes() {
        each_call(&change, &[]);
    }
}

// Now and then a write makes more calls than usual: where the table grows by a page, where the write-ahead log is copied
// to the file, and where it is begun anew.
#[test]
fn one_call_fails_of_each_length() {
    let _alone = alone();
    let write = changes().into_iter().find(|change| change.name == "write").unwrap();
    let room = Scratch::in_memory();
    let mut store = prepared(&room.file("run.db"), &write.before);
    let mut lengths = BTreeMap::new();
    for value in 0..1_100 {
        let (_, calls) = counted(|| store.write(0, value).unwrap());
        lengths.entry(calls).or_insert(value);
    }
    assert!(lengths.len() >= 4 && lengths.keys().any(|&calls| calls > 10), "{lengths:?}");
    for (calls, first) in lengths {
        let before: Vec<_> = (0..first).map(|value| (0, Step::write(value))).collect();
        assert_eq!(each_call(&write, &before), calls);
    }
}

#[test]
fn one_call_of_creating_fails() {
    let _alone = alone();
    let room = Scratch::in_memory();
    let (_, calls) = counted(|| Store::create(room.file("whole.db"), 3, Capacity::Small).unwrap());
    assert!(calls > 0);
    for number in 1..=calls {
        let file = room.file(&format!("{number}.db"));
        let (made, _) = failing(number, || Store::create(&file, 3, Capacity::Small).map(drop));
        match Store::open(&file) {
            Ok(_) => {}
            Err(Error::Unfinished) if made.is_err() => drop(Store::create(&file, 3, Capacity::Small).unwrap()),
            Err(error) => panic!("call {number}, answered by {made:?}: {error}"),
        }
        let mut store = Store::open(&file).unwrap();
        assert_eq!(store.become_leader(0), Ok(()));
        assert_eq!(rows_of(store.check()), Ok(1));
    }
}

// The write-ahead log cannot grow, but the file can: one step fails, the next has the former emptied and goes on.
#[test]
fn a_full_disk() {
    let _alone = alone();
    let room = Scratch::in_memory();
    let mut store = prepared(&room.file("run.db"), &changes()[8].before);
    limit_size(300_000);
    let (mut stored, mut failed, mut in_a_row) = (Vec::new(), 0, 0);
    for value in 0..300 {
        match store.write(0, value) {
            Ok(_) => (stored.push(value), in_a_row = 0).0,
            Err(error) => {
                assert!(matches!(error, Error::Engine { .. }), "{error}");
                in_a_row += 1;
                failed += 1;
                assert!(in_a_row < 2, "after a failure the next step works: {error}");
            }
        }
    }
    limit_size(0);
    assert!(failed > 0, "the disk was never full");
    let chain: Vec<u64> = store.latest().unwrap().chain().unwrap();
    assert!(stored.iter().all(|value| chain.contains(value)), "an acknowledged write is lost");
    assert!(chain.len() <= stored.len() + failed);
    rows_of(store.check()).unwrap();
}

// Nothing can be written at all; then there is room again.
#[test]
fn no_space_and_room_again() {
    let _alone = alone();
    let room = Scratch::in_memory();
    let mut store = prepared(&room.file("run.db"), &changes()[8].before);
    store.write(0, 1).unwrap();
    let before = held(&mut store);
    limit_size(1);
    for _ in 0..3 {
        let error = store.write(0, 2).unwrap_err();
        assert!(matches!(error, Error::Engine { .. }), "{error}");
        assert_eq!(held(&mut store), before);
    }
    // A refusal needs no room.
    assert_eq!(store.write(1, 2), Err(Error::Refused(Refusal::DoesNotLead)));
    limit_size(0);
    assert_eq!(store.write(0, 3).unwrap().number.0, 1);
    rows_of(store.check()).unwrap();
}

// The first request of a process fails, at each of its calls. Another process goes on, and then the first: whatever became
// of its request, no two have the same id.
#[test]
fn no_id_is_given_twice() {
    let _alone = alone();
    let room = Scratch::new();
    let mut failures = 0;
    for number in 1..100 {
        let file = room.file(&format!("ids-{number}.db"));
        drop(prepared(&file, &changes()[8].before));
        let (mut one, mut other) = (Store::open(&file).unwrap(), Store::open(&file).unwrap());
        let (made, calls) = failing(number, || one.write(0, 1));
        if calls < number {
            break;
        }
        failures += u32::from(made.is_err());
        for value in 0..3 {
            other.write(0, 10 + value).unwrap();
            one.write(0, 20 + value).unwrap();
        }
        let database = Database::open(&file, Mode::Existing, PATIENCE).unwrap();
        let same = "SELECT count(*) - count(DISTINCT request) FROM journal";
        assert_eq!(database.number(same).unwrap(), Some(0), "call {number}");
        rows_of(one.check()).unwrap();
    }
    assert!(failures > 2, "{failures}");
}
