//! A journal with the most rows that it takes: of each client, and in all.

use cindrolf::{Capacity, Step};
use std::time::Instant;
use store::database::Value;
use store::{Asked, CLIENT_ROW_LIMIT, Change, Error, OTHER_ROW_LIMIT, ROW_LIMIT, Store};
use store_tests::checked::rows_of;
use store_tests::forged;
use store_tests::scratch::Scratch;

/// Names these clients in turn, so often.
fn names(clients: &[u64], count: u32) -> Vec<Asked> {
    let named = clients.iter().cycle().map(|&client| Change::Step(client, Step::NAME).into());
    named.take(clients.len() * count as usize).collect()
}

#[test]
fn a_full_journal() {
    let room = Scratch::in_memory();
    let file = room.file("run.db");
    let mut store = Store::create(&file, 16, Capacity::Large).unwrap();
    // Client 0 is named already.
    let clients: Vec<u64> = (0..16).rev().collect();
    let told = store.take_all(&names(&clients, CLIENT_ROW_LIMIT)).unwrap();
    assert!(told.len() == 960_000 && told.iter().all(Result::is_ok));
    let marks = ["a", "b"].map(|name| name.parse().unwrap());
    let pairs = [Change::SetMark(marks[0]), Change::DropMark(marks[0])].map(Asked::from);
    let pairs: Vec<Asked> = pairs.iter().cycle().take(OTHER_ROW_LIMIT as usize).cloned().collect();
    store.take_all(&pairs).unwrap();
    for _ in 0..2 {
        assert_eq!(store.name(1), Err(Error::JournalFull(Some(1))));
        assert_eq!(store.set_mark(marks[1]), Err(Error::JournalFull(None)));
        assert_eq!(store.take_all(&names(&[5, 6], 1)), Err(Error::JournalFull(Some(5))));
    }
    assert_eq!(store.latest().unwrap().rows(), ROW_LIMIT);
    drop(store);
    let began = Instant::now();
    let mut store = Store::open(&file).unwrap();
    let opened = began.elapsed();
    assert_eq!(rows_of(store.check()), Ok(ROW_LIMIT));
    let size = std::fs::metadata(&file).unwrap().len();
    println!(
        "{ROW_LIMIT} rows: {} MB, opened in {opened:?}, checked in {:?}",
        size / 1_000_000,
        began.elapsed() - opened
    );
    drop(store);
    // A row more, with its right chain value: naming client 1.
    forged::add(&file, [7 << 32, 0, 0, 1], Value::Null, &[], 0).unwrap();
    match Store::open(&file).err() {
        Some(Error::Damaged(why)) => assert!(why.contains("more than 1000000 rows"), "{why}"),
        other => panic!("{other:?}"),
    }
}

// A client whose steps are refused, again and again, in requests of which another's step is accepted: it comes to its own
// limit, and the others go on.
#[test]
fn a_client_that_only_races() {
    let room = Scratch::in_memory();
    let mut store = Store::create(room.file("run.db"), 3, Capacity::Large).unwrap();
    let lost: Vec<Asked> = vec![Change::Step(0, Step::FETCH).into(); 1_000];
    for round in 0..u64::from(CLIENT_ROW_LIMIT / 1_000) {
        let request = [names(&[1 + round % 2], 1), lost.clone()].concat();
        let told = store.take_all(&request).unwrap();
        assert!(told[0].is_ok() && told[1..].iter().all(Result::is_err), "{round}");
    }
    let full = Err(Error::JournalFull(Some(0)));
    assert_eq!(store.take_all(&[names(&[1], 1), lost.clone()].concat()), full);
    assert_eq!(store.name(0), full.map(drop));
    assert_eq!((store.name(1), store.name(2), store.become_leader(2)), (Ok(()), Ok(()), Ok(())));
    assert_eq!(rows_of(store.check()), Ok(60_063));
}

// A request for which there is no room is not stored at all.
#[test]
fn a_request_that_does_not_fit() {
    let room = Scratch::in_memory();
    let mut store = Store::create(room.file("run.db"), 2, Capacity::Large).unwrap();
    let more = names(&[1, 0], CLIENT_ROW_LIMIT + 1);
    assert_eq!(store.take_all(&more), Err(Error::JournalFull(Some(1))));
    assert_eq!(store.latest().unwrap().rows(), 0);
    assert_eq!(store.name(1), Ok(()));
}
