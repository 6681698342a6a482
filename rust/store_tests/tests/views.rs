//! The views of a log's file, compared with what the library reads.

use cindrolf::{
    Capacity, Client, EntryNumber, Kind, Ledger, LedgerNumber, Right, Step, StepWord, VALUE_LIMIT, client_of,
    ledger_of, value_of,
};
use model::random::Random;
use std::path::Path;
use std::time::{Duration, Instant};
use store::database::{Database, Mode, Value};
use store::{Latest, Store};
use store_tests::checked::rows_of;
use store_tests::plans::random_plan;
use store_tests::scratch::Scratch;

/// The rows of a view, as text, and how long they took.
fn rows(file: &Path, view: &str, columns: &str) -> (Vec<String>, Duration) {
    let database = Database::open(file, Mode::Existing, Duration::ZERO).unwrap();
    let count = columns.split(',').count() as i32;
    let (mut rows, began) = (Vec::new(), Instant::now());
    database
        .prepare(&format!("SELECT {columns} FROM {view}"))
        .unwrap()
        .each(&[], |row| {
            let text = |value| match value {
                Value::Null => "-".to_owned(),
                Value::Integer(number) => number.to_string(),
                Value::Text(text) => text.to_owned(),
                Value::Blob(bytes) => format!("{bytes:?}"),
            };
            rows.push((0..count).map(|column| text(row.value(column))).collect::<Vec<_>>().join(" "));
            Ok::<(), store::Fault>(())
        })
        .unwrap();
    (rows, began.elapsed())
}

fn or_none(number: Option<u64>) -> String {
    number.map_or("-".into(), |number| number.to_string())
}

fn exact(sum: u128) -> String {
    format!("{}.{:012}", sum / 1_000_000_000_000, sum % 1_000_000_000_000)
}

/// The rows of `entries`.
fn entries(latest: Latest<'_>) -> Vec<String> {
    let count = latest.view().unwrap().entry_count() as usize;
    let entries = &latest.log().entries()[..count];
    let place = |number: usize| entries[..number].iter().filter(|word| *word >> 56 == entries[number] >> 56).count();
    let entry = |(number, &word): (usize, &u64)| {
        let ledger = ledger_of(word).unwrap().0;
        format!("{number} {ledger} {} {} {}", place(number), client_of(word), value_of(word))
    };
    entries.iter().enumerate().map(entry).collect()
}

/// The rows of `ledgers`.
fn ledgers(latest: Latest<'_>) -> Vec<String> {
    let (log, view) = (latest.log(), latest.view().unwrap());
    let created = (1..=255).map(LedgerNumber).filter_map(|number| view.ledger(number).map(|ledger| (number, ledger)));
    let row = |(number, ledger): (LedgerNumber, Ledger)| {
        let open = if ledger.open { "open" } else { "closed" };
        let state = if ledger.recovering { "recovering" } else { open };
        let place = view.list().position(|listed| listed == number).map(|place| place as u64 + 1);
        let held = log.read_ledger(number).unwrap_or(&[]);
        let sum = exact(held.iter().map(|&word| u128::from(value_of(word))).sum());
        let fenced = u64::from(ledger.fenced);
        format!("{} {} {state} {fenced} {} {} {sum}", number.0, or_none(place), ledger.version, held.len())
    };
    created.map(row).collect()
}

/// The rows of `clients`.
fn clients(latest: Latest<'_>) -> Vec<String> {
    let (view, chain) = (latest.view().unwrap(), latest.chain().unwrap());
    let row = |(number, client): (u64, Client)| {
        let named = u64::from(view.named_leader() == number);
        let written = chain.iter().filter(|&&word| client_of(word) == number).count();
        let (stage, ledger) = (client.stage.name(), or_none(client.ledger.map(|ledger| ledger.number.0)));
        let leads = u64::from(client.leads);
        format!("{number} {named} {leads} {stage} {} {ledger} {written}", or_none(client.list_version))
    };
    (0..).zip(view.clients()).map(row).collect()
}

/// What the views have to show, by the readers: the view, its columns, and its rows.
fn expected(store: &mut Store) -> Vec<(&'static str, &'static str, Vec<String>)> {
    let latest = store.latest().unwrap();
    let chain = latest.chain().unwrap();
    let along = chain.iter().enumerate().map(|(at, &word)| format!("{at} {} {}", client_of(word), value_of(word)));
    let marks = latest.mark_list().map(|(name, count)| {
        let name = String::from_utf8(name.0.into_iter().filter(|&byte| byte != 0).collect()).unwrap();
        format!("{name} {count}")
    });
    let rights = (0..latest.view().unwrap().client_count()).flat_map(|client| {
        Right::ALL.map(|right| format!("{client} {}", u64::from(latest.rights().has(client, right))))
    });
    let total = format!("{} {}", chain.len(), latest.total().unwrap());
    vec![
        ("entries", "entry, ledger, place, client, value", entries(latest)),
        ("chain", "position, client, value", along.collect()),
        ("ledgers", "ledger, list_place, state, fenced, version, entries, expected_errors", ledgers(latest)),
        ("clients", "client, named, leads, stage, list_version, ledger, entries", clients(latest)),
        ("marks", "name, entries", marks.collect()),
        ("rights", "client, granted", rights.collect()),
        ("total", "entries, expected_errors", vec![total]),
    ]
}

fn compare(store: &mut Store) {
    let file = store.path().to_owned();
    for (view, columns, wanted) in expected(store) {
        let (shown, _) = rows(&file, view, columns);
        assert_eq!(shown, wanted, "{view}");
    }
}

#[test]
fn random_logs() {
    let mut random = Random::new(5);
    for clients in [1, 2, 3, 16] {
        let room = Scratch::in_memory();
        let mut store = Store::create(room.file("run.db"), clients, Capacity::Small).unwrap();
        compare(&mut store);
        for round in 0..8 {
            let plan = random_plan(&mut random, clients, 150 * clients as usize);
            store.run_plan(&plan, u64::MAX).unwrap();
            store.set_mark(format!("m{round}").parse().unwrap()).unwrap();
            if round % 3 == 2 {
                store.drop_mark(format!("m{}", round - 1).parse().unwrap()).unwrap();
                store.revoke(random.below(clients), Right::CloseOwn).unwrap();
            }
            compare(&mut store);
        }
        assert!(store.latest().unwrap().view().unwrap().entry_count() > 20);
        rows_of(store.check()).unwrap();
    }
}

// What the session program prints of the same steps, refused ones left out.
#[test]
fn the_steps() {
    let room = Scratch::new();
    let file = room.file("run.db");
    let mut store = Store::create(&file, 2, Capacity::Large).unwrap();
    let text = "B 0 ok|F 0 ok|C 0 ok|P 0 ok|W 0 201 entry 0 place 0|N 1 ok|B 1 ok|F 1 ok|L 1 ok|L 0 ref|K 1 ok|\
                W 0 7 ref|O 0 behind|C 1 ok|P 1 ok|W 1 9 entry 1 place 0|O 1 ok|C 1 ok";
    let mut wanted = Vec::new();
    for (line, reply) in text.split('|').map(|line| line.split_at(line.find(['o', 'b', 'r', 'e']).unwrap())) {
        let words: Vec<&str> = line.split_whitespace().collect();
        let kind = Kind::from_letter(words[0].parse().unwrap()).unwrap();
        let value = words.get(2).map(|value| value.parse().unwrap());
        let answer = store.take(words[1].parse().unwrap(), Step::new(kind, value.unwrap_or(0)));
        assert_eq!(answer.is_err(), reply == "ref", "{line}");
        if reply != "ref" {
            wanted.push(format!("{} {} {} {} {reply}", wanted.len() + 1, words[0], words[1], or_none(value)));
        }
    }
    assert_eq!(rows(&file, "steps", "seq, letter, client, value, reply").0, wanted);
    store.write_scores(1, &[0]).unwrap_err();
}

// A full log: as many entries and ledgers as there can be, of the greatest values.
#[test]
fn a_full_log() {
    let room = Scratch::new();
    let file = room.file("run.db");
    let mut store = Store::create(&file, 16, Capacity::Large).unwrap();
    let mut plan = Vec::new();
    for turn in 0..255 {
        let client = turn % 16;
        let lead = [Step::NAME, Step::BECOME, Step::FETCH, Step::CLOSE_LAST, Step::FINISH, Step::CREATE, Step::APPEND];
        let writes = [Step::write(VALUE_LIMIT); 17];
        let leave = [(client + 1) % 16].map(|next| StepWord::new(next, Step::NAME).unwrap());
        plan.extend(lead.into_iter().chain(writes).map(|step| StepWord::new(client, step).unwrap()));
        plan.extend(leave);
        plan.push(StepWord::new(client, Step::ABDICATE).unwrap());
    }
    store.run_plan(&plan, u64::MAX).unwrap();
    store.set_mark("full".parse().unwrap()).unwrap();
    let view = store.latest().unwrap().view().unwrap();
    assert_eq!((view.entry_count(), view.next_ledger()), (4_096, None));
    assert!(view.entry(EntryNumber(4_095)).is_some());
    compare(&mut store);
    for view in ["entries", "chain", "ledgers", "clients", "steps", "marks", "rights", "total", "moves"] {
        // All columns are computed, though only the first is looked at.
        let (shown, taken) = rows(&file, view, "*");
        assert!(!shown.is_empty(), "{view}");
        assert!(taken < Duration::from_millis(300), "{view} took {taken:?}");
    }
    assert_eq!(store.write(0, 1), Err(store::Error::Refused(cindrolf::Refusal::DoesNotLead)));
}

// The statement that the reference shows, on the log whose values come to most for one client: 4,096 times 2^52 - 1.
#[test]
fn the_example_of_the_reference() {
    let room = Scratch::new();
    let file = room.file("run.db");
    let mut store = Store::create(&file, 1, Capacity::Large).unwrap();
    let lead = [Step::BECOME, Step::FETCH, Step::CREATE, Step::APPEND];
    let plan: Vec<_> = lead.into_iter().chain([Step::write(VALUE_LIMIT); 4_096]).collect();
    let plan: Vec<_> = plan.into_iter().map(|step| StepWord::new(0, step).unwrap()).collect();
    store.run_plan(&plan, u64::MAX).unwrap();
    let reference = concat!(env!("CARGO_MANIFEST_DIR"), "/../../docs/REFERENCE.md");
    let reference = std::fs::read_to_string(reference).unwrap();
    let mut examples = reference.lines().filter_map(|line| line.strip_prefix("    SELECT client, count(*) AS reads, "));
    let (errors, rest) = examples.next().unwrap().split_once(" AS errors ").unwrap();
    assert_eq!((rest, examples.next()), ("FROM chain GROUP BY client;", None));
    // 18446744.073709548 expected errors, in whole ones, since a connection of ours reads no real number.
    let select = format!("(SELECT count(*) AS reads, CAST({errors} AS INTEGER) AS errors FROM chain GROUP BY client)");
    assert_eq!(rows(&file, &select, "reads, errors").0, ["4096 18446744"]);
}

#[test]
fn a_plan_is_its_steps() {
    let mut random = Random::new(6);
    let room = Scratch::in_memory();
    let plan = random_plan(&mut random, 3, 900);
    let mut by_plan = Store::create(room.file("plan.db"), 3, Capacity::Small).unwrap();
    let mut singly = Store::create(room.file("singly.db"), 3, Capacity::Small).unwrap();
    let forecast = by_plan.latest().unwrap().forecast(&plan, 800);
    assert_eq!(by_plan.run_plan(&plan, 800), Ok(800));
    let mut refusals = 0;
    for word in &plan[..800] {
        refusals += u64::from(singly.take(word.client(), word.step().unwrap()).is_err());
    }
    assert_eq!(forecast.refusals, refusals);
    let (one, other) = (by_plan.latest().unwrap(), singly.latest().unwrap());
    assert_eq!(one.log().state(), other.log().state());
    assert_eq!(one.log().entries(), other.log().entries());
    // A request has a row for each of its steps, and a refused step that is taken by itself has none.
    assert_eq!((one.rows(), other.rows()), (800, 800 - refusals as i64));
    // And the proved runner leaves the same.
    let mut log = cindrolf::Log::fresh_with(3, Capacity::Small).unwrap();
    assert_eq!(log.run_plan(&cindrolf::Rights::all(3).unwrap(), &plan, 800), 800);
    assert_eq!((log.state(), log.entries()), (one.log().state(), one.log().entries()));
}
