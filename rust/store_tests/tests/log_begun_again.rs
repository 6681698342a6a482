//! A write-ahead log that one process restarts while another copies it to the file: no acknowledged write is lost.
//! SQLite 3.40.1 by itself loses writes, if the second has read the log's length before the restart and goes on after
//! it.

use cindrolf::value_of;
use std::path::Path;
use std::time::Duration;
use store::database::{Database, Mode, Statement, Value};
use store::{PATIENCE, Store};
use store_tests::checked::rows_of;
use store_tests::kinds::{changes, prepared};
use store_tests::scratch::Scratch;
use store_tests::shim::{Pauses, Place, install, pause_at, pauses, pauses_left};
use store_tests::skipped::skipped;

/// A process, as far as SQLite can tell, and the values of its writes that were acknowledged.
struct Writer<T> {
    log: T,
    next: u64,
    acknowledged: Vec<u64>,
}

/// What a writer writes to.
trait Written {
    /// Writes a value. Whether that is acknowledged.
    fn write(&mut self, value: u64) -> bool;
}

impl Written for Store {
    fn write(&mut self, value: u64) -> bool {
        let written = Store::write(self, 0, value);
        assert!(written.as_ref().err().is_none_or(store::Error::is_busy), "{written:?}");
        written.is_ok()
    }
}

impl<T: Written> Written for &mut T {
    fn write(&mut self, value: u64) -> bool {
        T::write(self, value)
    }
}

/// A table of plain SQLite, which copies its write-ahead log at the length at which a store does.
struct Plain(Statement, Database);

impl Plain {
    fn open(file: &Path) -> Plain {
        let database = Database::open(file, Mode::Create, PATIENCE).unwrap();
        database.text("PRAGMA journal_mode = WAL").unwrap();
        database.text("PRAGMA wal_autocheckpoint = 512").unwrap();
        database.execute("CREATE TABLE IF NOT EXISTS t (value INTEGER)").unwrap();
        Plain(database.prepare("INSERT INTO t VALUES (?)").unwrap(), database)
    }
}

impl Written for Plain {
    fn write(&mut self, value: u64) -> bool {
        self.0.execute(&[Value::Integer(value as i64)]).is_ok()
    }
}

impl<T: Written> Writer<T> {
    fn new(log: T, first: u64) -> Writer<T> {
        Writer { log, next: first, acknowledged: Vec::new() }
    }

    fn write(&mut self) {
        self.next += 1;
        if self.log.write(self.next) {
            self.acknowledged.push(self.next);
        }
    }
}

/// Has the other process pause twice while it copies the log, and this one write each time. Says whether the second pause
/// came.
fn at_the_worst_moments(writer: &mut Writer<impl Written>, pauses: &Pauses) -> bool {
    assert_eq!(pauses.reached(Duration::from_secs(20)), Some(Place::BeforeLock), "it never copies the log");
    writer.write();
    pauses.go();
    let looked = pauses.reached(Duration::from_secs(1)) == Some(Place::AfterLook);
    if looked {
        writer.write();
        pauses.go();
    }
    looked
}

/// Has another process, which `open` opens, write until it has copied the log. The values that were acknowledged to it,
/// and whether it paused twice.
fn beside_another<T: Written>(
    writer: &mut Writer<impl Written>,
    first: u64,
    open: impl FnOnce() -> T + Send,
) -> (Vec<u64>, bool) {
    for _ in 0..400 {
        writer.write();
    }
    let (arm, pauses) = pauses(&[Place::BeforeLock, Place::AfterLook]);
    let result = std::thread::scope(|scope| {
        let other = scope.spawn(|| {
            let mut other = Writer::new(open(), first);
            pause_at(arm);
            while pauses_left() == 2 && other.acknowledged.len() < 1_000 {
                other.write();
            }
            other.acknowledged
        });
        let looked = at_the_worst_moments(writer, &pauses);
        (other.join().unwrap(), looked)
    });
    // Past the length at which the log was copied.
    for _ in 0..600 {
        writer.write();
    }
    result
}

/// A store as the test uses it: it does not wait long for the other.
fn impatient(mut store: Store) -> Store {
    store.set_patience(Duration::from_millis(50));
    store
}

fn nothing_lost(file: &Path, acknowledged: &[u64]) {
    let mut store = Store::open(file).unwrap();
    let held: Vec<u64> = store.latest().unwrap().chain().unwrap().into_iter().map(value_of).collect();
    for value in acknowledged {
        assert!(held.contains(value), "the write of {value} was acknowledged, and is lost; {} are left", held.len());
    }
    assert_eq!(held.len(), acknowledged.len());
    rows_of(store.check()).unwrap();
}

#[test]
fn by_the_store() {
    install();
    let room = Scratch::in_memory();
    let file = room.file("run.db");
    let mut writer = Writer::new(impatient(prepared(&file, &changes()[8].before)), 0);
    let other = &mut impatient(Store::open(&file).unwrap());
    let (mut acknowledged, mut looked) = (Vec::new(), false);
    for first in [100_000, 200_000] {
        let (more, paused) = beside_another(&mut writer, first, || &mut *other);
        acknowledged.extend(more);
        looked |= paused;
        nothing_lost(&file, &[&acknowledged[..], &writer.acknowledged].concat());
    }
    if !looked {
        skipped("by_the_store", "this SQLite has no place to pause between looking at the log and copying it");
    }
}

// The control: the same moments lose rows of plain SQLite, so that they are the ones to fear.
#[test]
fn by_plain_sqlite() {
    install();
    let room = Scratch::in_memory();
    let file = room.file("plain.db");
    let mut writer = Writer::new(Plain::open(&file), 0);
    let (acknowledged, _) = beside_another(&mut writer, 100_000, || Plain::open(&file));
    let held = Plain::open(&file).1.number("SELECT count(*) FROM t");
    if held == Ok(Some((acknowledged.len() + writer.acknowledged.len()) as i64)) {
        skipped("by_plain_sqlite", "this SQLite loses nothing, so that the test of the store shows nothing here");
    }
}
