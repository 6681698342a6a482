//! Power failures at every moment of a log's life: what was answered is stored, and no step is half stored.

use cindrolf::{Capacity, Step, StepWord};
use model::random::Random;
use std::collections::BTreeSet;
use std::hash::{DefaultHasher, Hash, Hasher};
use std::path::Path;
use std::sync::{Mutex, PoisonError};
use store::{Error, LastRow, Store};
use store_tests::calls::{Done, What, traced};
use store_tests::crash::{Disk, Files, Loss};
use store_tests::scratch::Scratch;

/// How many of the disks with some of the writes are looked at, of each moment of a short life and of a long one.
const SAMPLES: usize = 24;
const SAMPLES_OF_LONG: usize = 8;

/// How many rows it takes at least until a write-ahead log is copied back by itself and begun again.
const LONG: u64 = 640;

/// One test at a time has its calls noted.
static ALONE: Mutex<()> = Mutex::new(());

/// Something that happened.
#[derive(Clone, Debug)]
enum Event {
    /// To a file.
    Done(Done),
    /// An answer was given, by this row; or the log was created, by row 0.
    Answered(LastRow),
}

/// What happens to a log in a folder of which nothing is there at first.
struct Life<'a> {
    events: Vec<Event>,
    /// Gives what was done since it was last asked.
    done: &'a dyn Fn() -> Vec<Done>,
}

impl Life<'_> {
    fn answered(&mut self, store: &Store) {
        self.events.extend((self.done)().into_iter().map(Event::Done));
        self.events.push(Event::Answered(store.last_row().unwrap()));
    }

    /// So many writes by one of these stores after the other.
    fn writes(&mut self, stores: &mut [&mut Store], count: u64) {
        for value in 0..count {
            let number = value as usize % stores.len();
            stores[number].write(0, value).unwrap();
            self.answered(stores[number]);
        }
    }
}

/// A log that is created, with client 0 writing.
fn begun(life: &mut Life<'_>, file: &Path) -> Store {
    let mut store = Store::create(file, 2, Capacity::Large).unwrap();
    life.answered(&store);
    for step in [Step::BECOME, Step::FETCH, Step::CREATE, Step::APPEND] {
        let _ = store.take(0, step).unwrap();
        life.answered(&store);
    }
    store
}

/// A log that is created, written by two stores, copied back, written on, closed and opened again.
fn life(file: &Path) -> Vec<Event> {
    traced(|done| {
        let mut life = Life { events: Vec::new(), done };
        let mut one = begun(&mut life, file);
        let mut other = Store::open(file).unwrap();
        life.writes(&mut [&mut one, &mut other], 30);
        // Several rows by one commit.
        let word = |value| StepWord::new(0, Step::write(value)).unwrap();
        one.run_plan(&[word(1), word(2), word(3)].repeat(60), u64::MAX).unwrap();
        life.answered(&one);
        one.checkpoint().unwrap();
        life.writes(&mut [&mut one, &mut other], 20);
        drop(one);
        life.writes(&mut [&mut other], 5);
        drop(other);
        let mut again = Store::open(file).unwrap();
        life.writes(&mut [&mut again], 15);
        again.checkpoint().unwrap();
        life.writes(&mut [&mut again], 5);
        drop(again);
        life.events.extend(done().into_iter().map(Event::Done));
        life.events
    })
}

/// A log whose write-ahead log is copied back while it is written, and written over.
fn long_life(file: &Path) -> Vec<Event> {
    traced(|done| {
        let mut life = Life { events: Vec::new(), done };
        let mut one = begun(&mut life, file);
        let mut other = Store::open(file).unwrap();
        life.writes(&mut [&mut one, &mut other], LONG);
        life.events
    })
}

/// Opens what power failures leave.
struct Failures {
    room: Scratch,
    random: Random,
    /// The rows that were the last of a commit.
    told: Vec<LastRow>,
    /// The disks that were looked at, by a number of each, and how many answers were given before.
    seen: BTreeSet<(usize, u64)>,
}

impl Failures {
    fn of(events: &[Event], seed: u64) -> Failures {
        let told = events.iter().filter_map(|event| match event {
            Event::Answered(row) => Some(*row),
            Event::Done(_) => None,
        });
        Failures { room: Scratch::in_memory(), random: Random::new(seed), told: told.collect(), seen: BTreeSet::new() }
    }

    /// Has the power fail after each event. What does not hold is the error.
    fn after_each(&mut self, folder: &Path, events: &[Event]) -> Result<usize, String> {
        self.after_some(folder, events, SAMPLES, |_| true)
    }

    /// Has the power fail after some events, with so many samples of each.
    fn after_some(
        &mut self,
        folder: &Path,
        events: &[Event],
        samples: usize,
        fails: impl Fn(usize) -> bool,
    ) -> Result<usize, String> {
        let (mut disk, mut told) = (Disk::empty(folder), 0);
        for (number, event) in events.iter().enumerate() {
            match event {
                Event::Done(done) => disk.follow(done),
                Event::Answered(_) => told += 1,
            }
            if !fails(number) {
                continue;
            }
            for loss in [vec![Loss::All, Loss::None], vec![Loss::Some; samples]].concat() {
                let files = disk.after(loss, &mut self.random);
                self.look(files, told).map_err(|why| format!("event {number}, {loss:?} lost: {why}"))?;
                if !disk.is_pending() {
                    break;
                }
            }
        }
        Ok(self.seen.len())
    }

    /// So many answers were given before. Before the first, the log need not be there.
    fn look(&mut self, files: Files, told: usize) -> Result<(), String> {
        let mut number = DefaultHasher::new();
        files.hash(&mut number);
        if !self.seen.insert((told, number.finish())) {
            return Ok(());
        }
        let folder = self.room.file("disk");
        let _ = std::fs::remove_dir_all(&folder);
        std::fs::create_dir(&folder).unwrap();
        for (name, bytes) in &files {
            std::fs::write(folder.join(name.file_name().unwrap()), bytes).unwrap();
        }
        let file = folder.join("run.db");
        // Who is told nothing creates the log again, which makes it or finds it whole.
        if told == 0 {
            match Store::create(&file, 2, Capacity::Large) {
                Err(Error::Exists) => {}
                made => return made.map(drop).map_err(|error| format!("it cannot be created: {error}")),
            }
        }
        let last = Store::open(&file).map_err(|error| error.to_string())?.last_row().unwrap();
        self.hold(last, told)
    }

    /// The last row has to be that of the last answer, or of the next.
    fn hold(&self, last: LastRow, told: usize) -> Result<(), String> {
        let before = told.checked_sub(1).map(|before| self.told[before]);
        if before.is_some_and(|before| last.number < before.number) {
            return Err(format!("it ends at {last}, and {} was answered", self.told[told - 1]));
        }
        if before == Some(last) || self.told.get(told) == Some(&last) {
            return Ok(());
        }
        Err(format!("it ends at {last}, which nobody asked for"))
    }
}

#[test]
fn at_every_moment() {
    let _alone = ALONE.lock().unwrap_or_else(PoisonError::into_inner);
    let room = Scratch::in_memory();
    let events = life(&room.file("run.db"));
    let answers = events.iter().filter(|event| matches!(event, Event::Answered(_))).count();
    let states = Failures::of(&events, 1).after_each(room.folder(), &events).unwrap();
    assert!(answers > 70 && states > 1000, "{answers} answers, {states} states");
    controls(room.folder(), &events);
}

/// The same life by a store that does not sync once it has created the log, and by one that answers before it syncs.
fn controls(folder: &Path, events: &[Event]) {
    let is_sync = |event: &Event| matches!(event, Event::Done(Done { what: What::Synced, .. }));
    let created = events.iter().position(|event| matches!(event, Event::Answered(_))).unwrap();
    let mut no_syncs = events.to_vec();
    no_syncs.retain({
        let mut number = 0;
        move |event| {
            number += 1;
            number <= created || !is_sync(event)
        }
    });
    let mut early = events.to_vec();
    for number in created + 1..early.len() {
        if matches!(early[number], Event::Answered(_)) && is_sync(&early[number - 1]) {
            early.swap(number - 1, number);
        }
    }
    for wrong in [no_syncs, early] {
        let why = Failures::of(&wrong, 1).after_each(folder, &wrong).unwrap_err();
        assert!(why.contains("was answered"), "{why}");
    }
}

/// The events after the log was created that write to a file, at such an offset.
fn writes(events: &[Event], to: &Path, at: impl Fn(u64) -> bool) -> BTreeSet<usize> {
    let is_write = |event: &Event| match event {
        Event::Done(Done { file, what: What::Written(offset, _) }) => file == to && at(*offset),
        _ => false,
    };
    let created = events.iter().position(|event| matches!(event, Event::Answered(_))).unwrap();
    (created..events.len()).filter(|&number| is_write(&events[number])).collect()
}

// About the moments at which the file itself is written, and then its write-ahead log from the beginning.
#[test]
fn while_it_is_copied_back() {
    let _alone = ALONE.lock().unwrap_or_else(PoisonError::into_inner);
    let room = Scratch::in_memory();
    let file = room.file("run.db");
    let events = long_life(&file);
    let copied = writes(&events, &file, |_| true);
    let begun = writes(&events, &room.file("run.db-wal"), |offset| offset == 0);
    assert!(copied.first() < begun.last(), "it was not copied back and begun again");
    let near = |number: usize| copied.range(number.saturating_sub(60)..number + 30).next().is_some();
    let look = |events: &[Event]| Failures::of(events, 1).after_some(room.folder(), events, SAMPLES_OF_LONG, near);
    let states = look(&events).unwrap();
    assert!(states > 100, "{states} states");
    // A control: the file is not synced before what it was copied from is written over.
    let mut wrong = events.clone();
    for event in &mut wrong[*copied.first().unwrap()..] {
        if let Event::Done(done) = event
            && (&done.file, &done.what) == (&file, &What::Synced)
        {
            done.file = room.file("another");
        }
    }
    look(&wrong).unwrap_err();
}
