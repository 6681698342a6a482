//! Requests of many steps, and what is stored with each row.

use cindrolf::{Answer, Capacity, Refusal, Step};
use model::random::Random;
use std::time::{Duration, SystemTime, UNIX_EPOCH};
use store::database::{Database, Mode, Value};
use store::{Asked, Change, Error, NOTE_LIMIT, PATIENCE, PROCESS_LIMIT, Stepper, Store};
use store_tests::checked::rows_of;
use store_tests::kinds::{changes, prepared};
use store_tests::scratch::Scratch;

fn asked(steps: &[(u64, Step)]) -> Vec<Asked> {
    steps.iter().map(|&(client, step)| Change::Step(client, step).into()).collect()
}

fn column(store: &Store, column: &str) -> Vec<String> {
    let database = Database::open(store.path(), Mode::Existing, PATIENCE).unwrap();
    let mut rows = Vec::new();
    let select = format!("SELECT {column} FROM journal ORDER BY seq");
    database
        .prepare(&select)
        .unwrap()
        .each(&[], |row| {
            rows.push(match row.value(0) {
                Value::Null => "-".to_owned(),
                Value::Integer(number) => number.to_string(),
                Value::Text(text) => text.to_owned(),
                Value::Blob(bytes) => format!("{bytes:?}"),
            });
            Ok::<(), store::Fault>(())
        })
        .unwrap();
    rows
}

#[test]
fn all_or_none() {
    let room = Scratch::in_memory();
    let mut store = prepared(&room.file("run.db"), &changes()[8].before);
    let told = store.take_all(&asked(&[(0, Step::write(7)), (1, Step::FETCH), (0, Step::write(8))])).unwrap();
    let replies: Vec<_> = told.iter().map(|told| told.map(|answer| answer.to_string())).collect();
    let stored = |number| Ok(format!("entry {number} place {number}"));
    assert_eq!(replies, [stored(0), Err(Refusal::DoesNotLead), stored(1)]);
    // Each step has a row, the refused one too.
    assert_eq!(store.latest().unwrap().rows(), 7);
    assert_eq!(column(&store, "answer & 511")[4..], ["0", "263", "1"]);
    assert_eq!(column(&store, "part"), ["0", "0", "0", "0", "0", "1", "2"]);
    let requests = column(&store, "request");
    assert!(requests[4] == requests[5] && requests[5] == requests[6] && requests[3] != requests[4], "{requests:?}");
    // Where every step is refused nothing is stored, and where none is asked for.
    let refused = store.take_all(&asked(&[(1, Step::FETCH), (9, Step::NAME)]));
    assert_eq!(refused, Ok(vec![Err(Refusal::DoesNotLead), Err(Refusal::UnknownClient)]));
    assert_eq!(store.take_all(&[]), Ok(vec![]));
    assert_eq!(rows_of(store.check()), Ok(7));
}

// A request of random steps, of every kind, comes to the same as its steps one by one.
#[test]
fn as_one_by_one() {
    let mut random = Random::new(11);
    for round in 0..20 {
        let room = Scratch::in_memory();
        let mut at_once = Store::create(room.file("at_once.db"), 3, Capacity::Small).unwrap();
        let mut singly = Store::create(room.file("singly.db"), 3, Capacity::Small).unwrap();
        for _ in 0..10 {
            let request: Vec<Asked> = (0..random.between(1, 40)).map(|_| any(&mut random).into()).collect();
            let told = at_once.take_all(&request).unwrap();
            for (asked, told) in request.iter().zip(told) {
                assert_eq!(singly.take_all(std::slice::from_ref(asked)), Ok(vec![told]), "round {round}: {asked:?}");
            }
            let (one, other) = (at_once.latest().unwrap(), singly.latest().unwrap());
            assert_eq!((one.log().state(), one.log().entries()), (other.log().state(), other.log().entries()));
            assert_eq!((one.marks(), one.rights()), (other.marks(), other.rights()));
        }
        rows_of(at_once.check()).unwrap();
        rows_of(singly.check()).unwrap();
        // And one that opens the log comes to the same by plans.
        let mut opened = Store::open(at_once.path()).unwrap();
        let (one, other) = (at_once.latest().unwrap(), opened.latest().unwrap());
        assert_eq!((one.log().state(), one.log().entries()), (other.log().state(), other.log().entries()));
        assert_eq!((one.marks(), one.rights(), one.last_row()), (other.marks(), other.rights(), other.last_row()));
        assert_eq!(opened.wrong_answers(), []);
    }
}

/// Any step, mostly one that may be accepted.
fn any(random: &mut Random) -> Change {
    let client = random.below(4);
    let kind = cindrolf::Kind::from_number(random.below(10)).unwrap();
    match random.below(20) {
        0 => Change::WriteScores(client, vec![40, 372, random.below(400) as u16]),
        1 => Change::SetMark(random.pick(&["a", "b", "c"]).parse().unwrap()),
        2 => Change::DropMark(random.pick(&["a", "b", "c"]).parse().unwrap()),
        3 => Change::SetRights(client, (0x3FF << 54) & !(1 << random.between(50, 63))),
        4..12 => Change::Step(client % 2, random.pick(&[Step::BECOME, Step::FETCH, Step::CREATE, Step::APPEND])),
        12..16 => Change::Step(client % 2, Step::write(random.below(1 << 53))),
        _ => Change::Step(client, Step::new(kind, random.below(100))),
    }
}

#[test]
fn what_people_read() {
    let room = Scratch::in_memory();
    let mut store = prepared(&room.file("run.db"), &changes()[8].before);
    let before = SystemTime::now().duration_since(UNIX_EPOCH).unwrap();
    let note = |change, note: &str| Asked { change, note: Some(note.into()) };
    store.set_process_name("sequencer 7").unwrap();
    let reads = [note(Change::Step(0, Step::write(7)), "read/1"), note(Change::WriteScores(0, vec![40]), "léger")];
    store.take_all(&reads).unwrap();
    let after = before + Duration::from_secs(100);
    assert_eq!(column(&store, "note"), ["-", "-", "-", "-", "read/1", "léger"]);
    let names = column(&store, "process");
    assert!(names[3].ends_with(&format!("[{}]", std::process::id())), "{names:?}");
    assert_eq!(names[4..], ["sequencer 7", "sequencer 7"]);
    let times: Vec<u128> = column(&store, "time")[4..].iter().map(|time| time.parse().unwrap()).collect();
    assert!(times.iter().all(|time| (before.as_micros()..after.as_micros()).contains(time)), "{times:?}");
    let mut rows = Vec::new();
    let told = store.each_row(|row| {
        rows.push((
            row.number,
            row.reply.clone(),
            row.value,
            row.process.map(str::to_owned),
            row.note.map(str::to_owned),
        ));
        assert!(row.time.is_some() && !row.is_refused());
        Ok(())
    });
    assert_eq!((told, rows.len()), (Ok(()), 6));
    let process = || Some("sequencer 7".to_owned());
    assert_eq!(rows[4], (5, "entry 0 place 0".into(), Some(7), process(), Some("read/1".into())));
    // A score of 40 quarters of a Phred unit is 0.1 expected errors.
    assert_eq!(rows[5], (6, "entry 1 place 1".into(), Some(100_000_000_000), process(), Some("léger".into())));
    for first in 1..=7 {
        let mut numbers = Vec::new();
        store
            .each_row_from(first, |row| {
                numbers.push(row.number);
                Ok(())
            })
            .unwrap();
        assert!(numbers.into_iter().eq(first..=6), "from {first}");
    }
    // Too long is refused, and nothing is stored.
    let long = "x".repeat(NOTE_LIMIT + 1);
    let error = store.take_all(&[note(Change::Step(0, Step::write(7)), &long)]).unwrap_err();
    assert_eq!(error.to_string(), "a note has at most 200 bytes");
    store.take_all(&[note(Change::Step(0, Step::write(9)), &long[1..])]).unwrap();
    let error = store.set_process_name(&"x".repeat(PROCESS_LIMIT + 1)).unwrap_err();
    assert_eq!(error.to_string(), "the name of a process has at most 100 bytes");
    assert_eq!(rows_of(store.check()), Ok(7));
}

#[test]
fn who_steps() {
    let room = Scratch::in_memory();
    let mut one = prepared(&room.file("run.db"), &changes()[8].before);
    let mut other = Store::open(one.path()).unwrap();
    one.set_process_name("one").unwrap();
    other.set_process_name("other").unwrap();
    let stepper = |last: &str, other: Option<&str>| Stepper { last: Some(last.into()), other: other.map(Into::into) };
    one.write(0, 1).unwrap();
    // One after the other is how a controller starts again.
    other.write(0, 2).unwrap();
    assert_eq!(one.steppers(2).unwrap(), [stepper("other", None), Stepper::default()]);
    other.name(1).unwrap();
    one.write(0, 3).unwrap();
    assert_eq!(other.steppers(2).unwrap(), [stepper("one", Some("other")), stepper("other", None)]);
}

// A write that a process lies about: by its entry number, its place, its value or its being accepted at all; or another step,
// here the naming of a client, in a long row of writes. Each process that replays it finds it, and takes no harm.
#[test]
fn lies_in_a_long_row_of_steps() {
    let entry = |number: i64, place: i64| (1 << 32) + (number << 16) + place;
    let write = |value| if value == 60 { (1, Step::NAME) } else { (0, Step::write(value)) };
    let lies = [entry(50, 49), entry(49, 48), 0, 2, 268, entry(4_000, 49)].map(|lie| (54, lie, "entry 49 place 49"));
    for (row, lie, truth) in lies.into_iter().chain([1, 2, 261, entry(60, 60)].map(|lie| (65, lie, "ok"))) {
        let room = Scratch::in_memory();
        let file = room.file("run.db");
        let mut store = prepared(&file, &changes()[8].before);
        store.set_process_name("honest").unwrap();
        store.take_all(&asked(&(0..100).map(write).collect::<Vec<_>>())).unwrap();
        let wanted = store.latest().unwrap().chain().unwrap();
        drop(store);
        let database = Database::open(&file, Mode::Existing, PATIENCE).unwrap();
        let trigger = "SELECT sql FROM sqlite_schema WHERE name = 'journal_is_not_changed'";
        let trigger = database.text(trigger).unwrap().unwrap();
        database.execute("DROP TRIGGER journal_is_not_changed").unwrap();
        database.execute(&format!("UPDATE journal SET answer = {lie}, process = 'liar' WHERE seq = {row}")).unwrap();
        database.execute(&trigger).unwrap();
        drop(database);
        let mut store = Store::open(&file).unwrap();
        let found = store.wrong_answers().to_vec();
        assert_eq!(found.len(), 1, "{lie}: {found:?}");
        assert_eq!((found[0].row, found[0].process.as_deref()), (row, Some("liar")));
        assert_eq!(found[0].replayed, truth);
        assert_eq!(store.check().unwrap().wrong, found);
        assert_eq!(store.latest().unwrap().chain().unwrap(), wanted);
        assert!(matches!(store.take(0, Step::write(7)), Ok(Answer::Stored(_))));
    }
}

#[test]
fn a_refused_request_waits_for_nobody() {
    let room = Scratch::in_memory();
    let mut store = prepared(&room.file("run.db"), &changes()[8].before);
    let other = Database::open(store.path(), Mode::Existing, PATIENCE).unwrap();
    other.execute("BEGIN IMMEDIATE").unwrap();
    store.set_patience(Duration::ZERO);
    assert_eq!(store.fetch(1), Err(Error::Refused(Refusal::DoesNotLead)));
    assert!(store.write(0, 1).unwrap_err().is_busy());
    other.execute("ROLLBACK").unwrap();
    store.write(0, 1).unwrap();
}
