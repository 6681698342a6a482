//! Several processes, threads and connections on one log.

use cindrolf::{Capacity, Refusal, value_of};
use std::path::Path;
use std::process::{Child, Command, Stdio};
use std::time::{Duration, Instant};
use store::database::{Database, Mode};
use store::{Error, PATIENCE, Store, Stored};
use store_tests::checked::rows_of;
use store_tests::kinds::{changes, prepared};
use store_tests::scratch::Scratch;

fn writer(file: &Path, client: u64, first: u64, count: u64) -> Child {
    let numbers = [client, first, count].map(|number| number.to_string());
    let mut command = Command::new(env!("CARGO_BIN_EXE_writer"));
    command.arg(file).args(numbers).stdout(Stdio::piped()).spawn().unwrap()
}

/// What a writer printed: values and their entry numbers.
fn stored(child: Child) -> Vec<(u64, u64)> {
    let output = child.wait_with_output().unwrap();
    assert!(output.status.success());
    let text = String::from_utf8(output.stdout).unwrap();
    let pair = |line: &str| line.split_once(' ').map(|(value, entry)| (value.parse().unwrap(), entry.parse().unwrap()));
    text.lines().map(|line| pair(line).unwrap()).collect()
}

#[test]
fn two_processes_as_one_client() {
    let room = Scratch::new();
    let file = room.file("run.db");
    drop(Store::create(&file, 1, Capacity::Small).unwrap());
    let children = [writer(&file, 0, 0, 200), writer(&file, 0, 1000, 200)];
    let answered: Vec<_> = children.into_iter().flat_map(stored).collect();
    assert_eq!(answered.len(), 400);
    let mut store = Store::open(&file).unwrap();
    let chain = store.latest().unwrap().chain().unwrap();
    assert_eq!(chain.len(), 400);
    for (value, entry) in answered {
        assert_eq!(value_of(chain[entry as usize]), value);
    }
    rows_of(store.check()).unwrap();
}

#[test]
fn a_lock_held_past_the_deadline() {
    let room = Scratch::new();
    let file = room.file("run.db");
    let mut store = prepared(&file, &changes()[8].before);
    store.set_patience(Duration::from_millis(300));
    let other = Database::open(&file, Mode::Existing, PATIENCE).unwrap();
    other.execute("BEGIN IMMEDIATE").unwrap();
    let began = Instant::now();
    let error = store.write(0, 1).unwrap_err();
    assert!(error.is_busy() && error.stored() == Stored::No, "{error}");
    assert!((300..5_000).contains(&began.elapsed().as_millis()), "{:?}", began.elapsed());
    // Who reads does not wait, however patient.
    store.set_patience(Duration::from_secs(60));
    let began = Instant::now();
    assert_eq!(store.latest().unwrap().rows(), 4);
    assert!(began.elapsed() < Duration::from_secs(30));
    other.execute("ROLLBACK").unwrap();
    assert_eq!(store.write(0, 1).unwrap().number.0, 0);
}

// A reader in the midst of its reading sees the log of when it began, and keeps nobody from writing.
#[test]
fn a_reader_stops_nobody() {
    let room = Scratch::new();
    let file = room.file("run.db");
    let mut store = prepared(&file, &changes()[8].before);
    store.write(0, 1).unwrap();
    let reader = Database::open(&file, Mode::Existing, PATIENCE).unwrap();
    reader.execute("BEGIN").unwrap();
    let count = || reader.number("SELECT count(*) FROM entries").unwrap();
    assert_eq!(count(), Some(1));
    store.set_patience(Duration::ZERO);
    for value in 2..5 {
        store.write(0, value).unwrap();
    }
    assert_eq!(count(), Some(1));
    reader.execute("COMMIT").unwrap();
    assert_eq!(count(), Some(4));
}

#[test]
fn a_stale_copy_catches_up() {
    let room = Scratch::new();
    let file = room.file("run.db");
    let mut first = prepared(&file, &changes()[8].before);
    let mut second = Store::open(&file).unwrap();
    for value in 0..10 {
        assert_eq!(first.write(0, value).unwrap().number.0, 2 * value);
        assert_eq!(second.write(0, value).unwrap().number.0, 2 * value + 1);
    }
    second.set_mark("wash".parse().unwrap()).unwrap();
    first.revoke(0, cindrolf::Right::Write).unwrap();
    assert_eq!(second.write(0, 1), Err(Error::Refused(Refusal::MissingRight)));
    assert_eq!(first.latest().unwrap().mark_list().next(), Some(("wash".parse().unwrap(), 20)));
    assert_eq!(first.check(), second.check());
}

unsafe extern "C" {
    fn fork() -> i32;
    fn waitpid(process: i32, status: *mut i32, options: i32) -> i32;
    fn _exit(status: i32) -> !;
}

#[test]
fn a_fork_is_refused() {
    let room = Scratch::new();
    let mut store = prepared(&room.file("run.db"), &changes()[8].before);
    // SAFETY: the child only calls the store, which does nothing in it, and ends.
    let status = unsafe {
        let child = fork();
        if child == 0 {
            let refused = store.write(0, 1) == Err(Error::Forked) && store.latest().err() == Some(Error::Forked);
            drop(store);
            _exit(if refused { 0 } else { 1 });
        }
        let mut status = -1;
        assert_eq!(waitpid(child, &mut status, 0), child);
        status
    };
    assert_eq!(status, 0);
    assert_eq!(store.write(0, 2).unwrap().number.0, 0);
    rows_of(store.check()).unwrap();
}

#[test]
fn two_creates_at_once() {
    for _ in 0..20 {
        let room = Scratch::new();
        let file = room.file("run.db");
        let made: Vec<_> = std::thread::scope(|scope| {
            let threads: Vec<_> =
                (0..4).map(|_| scope.spawn(|| Store::create(&file, 2, Capacity::Large).map(drop))).collect();
            threads.into_iter().map(|thread| thread.join().unwrap()).collect()
        });
        assert_eq!(made.iter().filter(|made| made.is_ok()).count(), 1, "{made:?}");
        assert!(made.iter().all(|made| matches!(made, Ok(()) | Err(Error::Exists))), "{made:?}");
        assert_eq!(rows_of(Store::open(&file).unwrap().check()), Ok(0));
    }
}

// The store moves to another thread with its connection.
#[test]
fn another_thread() {
    let room = Scratch::new();
    let mut store = prepared(&room.file("run.db"), &changes()[8].before);
    let entry = std::thread::spawn(move || store.write(0, 1).unwrap().number.0).join().unwrap();
    assert_eq!(entry, 0);
}
