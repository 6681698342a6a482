//! The crate's views against the model: on histories in LedgerChaining's terms, and on unreachable buffers.

use cindrolf::{EntryNumber, LedgerNumber, ListPlace, Log, LogRef, Refusal, Stage, View};
use compare::buffers;
use model::histories::Profile;
use model::layout::{self, NONE, client_index, ledger_index, place_index};
use model::random::Random;
use model::source::{self, Source, Status};
use model::{Step, words};

fn stage(status: Status) -> Stage {
    match status {
        Status::Waiting => Stage::Waiting,
        Status::GetMdForClosing => Stage::Fetching,
        Status::CloseLastLedger => Stage::ClosingLast,
        Status::PendingCreateLedger => Stage::Creating,
        Status::PendingAppendLedger => Stage::Appending,
        Status::HasOpenLedger => Stage::Writing,
        Status::FinishLastLedger => Stage::Finishing,
    }
}

fn client_agrees(view: &View, number: u64, client: &source::Client) {
    let seen = view.client(number).expect("it is below the client count");
    assert_eq!(seen.leads, client.leader);
    assert_eq!(seen.stage, stage(client.status));
    assert_eq!(seen.list_version.map_or(-1, |version| version as i64), client.llist_version);
    let ledger = seen
        .ledger
        .map_or((0, false, -1, false), |seen| (seen.number.0, seen.open, seen.version as i64, seen.recovering));
    let expected = client.ledger;
    assert_eq!(ledger, (expected.id, expected.open, expected.version, expected.recovering));
}

fn ledger_agrees(view: &View, number: u64, source: &Source) {
    let fenced = source.b_ledgers.get(&number).is_some_and(|stored| stored.fenced);
    let ledger = source.md_ledgers.get(&number);
    let expected = ledger.map(|ledger| (ledger.open, ledger.version as u64, fenced, ledger.recovering));
    let seen = view.ledger(LedgerNumber(number)).map(|seen| (seen.open, seen.version, seen.fenced, seen.recovering));
    assert_eq!(seen, expected, "ledger {number}");
}

fn source_agrees(view: &View, source: &Source) {
    assert_eq!(view.named_leader(), source.md_leader);
    assert_eq!(view.client_count(), source.c_state.len() as u64);
    assert_eq!(view.entry_count(), source.next_entry_id);
    assert_eq!(view.next_ledger().map_or(256, |next| next.0), source.md_next_lid);
    assert_eq!(view.list_length(), source.md_llist.len() as u64);
    for (number, client) in (0..).zip(&source.c_state) {
        client_agrees(view, number, client);
    }
    assert_eq!(view.client(view.client_count()), None);
    assert_eq!(view.clients().count() as u64, view.client_count());
    for number in (0..=257).chain([u64::MAX]) {
        ledger_agrees(view, number, source);
        let listed = (number as usize).checked_sub(1).and_then(|index| source.md_llist.get(index));
        assert_eq!(view.ledger_at(ListPlace(number)).map(|ledger| ledger.0), listed.copied());
    }
    assert!(view.list().map(|ledger| ledger.0).eq(source.md_llist.iter().copied()));
    for (&ledger, stored) in &source.b_ledgers {
        for &(number, client, value) in &stored.entries {
            let seen = view.entry(EntryNumber(number)).expect("it is below the entry count");
            assert_eq!((seen.ledger.0, seen.client, seen.value), (ledger, client, value));
        }
    }
    assert_eq!(view.entry(EntryNumber(source.next_entry_id)), None);
    assert_eq!(view.capacity().words(), source.capacity);
}

#[test]
fn histories() {
    histories_with(512);
    histories_with(4096);
}

fn histories_with(capacity: usize) {
    let mut random = Random::new(8);
    let mut most = (0, 0);
    for round in 0..10 {
        let profile = Profile::ALL[round % Profile::ALL.len()];
        let mut source = Source::init_with(random.between(1, 16), capacity);
        for step in 0..5_000 {
            let (client, next) = profile.next(&mut random, &source);
            source.step(client, next);
            if step % 50 == 0 {
                let (state, entries) = source.buffers();
                source_agrees(&Log::from_words(&state, &entries).unwrap().view(), &source);
            }
        }
        let (state, entries) = source.buffers();
        source_agrees(&LogRef::new(&state, &entries).view().unwrap(), &source);
        most = (most.0.max(source.md_next_lid), most.1.max(source.next_entry_id));
    }
    assert_eq!(most, (256, capacity as u64), "the histories reach both limits");
}

fn layout_agrees(view: &View, state: &[u64], entries: &[u64]) {
    let head = layout::Head::load(state[0]).0;
    for number in 0..head.client_count {
        let client = layout::Client::load(state[client_index(number)]).0;
        let seen = view.client(number).unwrap();
        assert_eq!((seen.leads as u64, seen.stage as u64), (client.leads, client.stage));
        assert_eq!(seen.list_version.unwrap_or(NONE), client.list_version);
        let ledger = seen
            .ledger
            .map_or((0, 0, NONE, 0), |seen| (seen.number.0, seen.open as u64, seen.version, seen.recovering as u64));
        assert_eq!(ledger, (client.ledger, client.open, client.version, client.recovering));
    }
    for number in 1..head.next_ledger {
        let ledger = layout::Ledger::load(state[ledger_index(number)]).0;
        let seen = view.ledger(LedgerNumber(number)).unwrap();
        assert_eq!((seen.open as u64, seen.version), (ledger.open, ledger.version));
        assert_eq!((seen.fenced as u64, seen.recovering as u64), (ledger.fenced, ledger.recovering));
    }
    for place in 1..=head.list_length {
        let ledger = layout::Place::load(state[place_index(place)]).0.ledger;
        assert_eq!(view.ledger_at(ListPlace(place)), Some(LedgerNumber(ledger)));
    }
    for number in 0..head.entry_count {
        let entry = layout::Entry::load(entries[number as usize]);
        let seen = view.entry(EntryNumber(number)).unwrap();
        assert_eq!((seen.ledger.0, seen.client, seen.value), (entry.ledger, entry.client, entry.value));
    }
}

// Stages, memories and flags in every mixture that a well-formed log may have.
#[test]
fn any_well_formed_log() {
    let mut random = Random::new(9);
    for _ in 0..2_000 {
        let log = buffers::well_formed(&mut random);
        let view = LogRef::new(&log.state, &log.entries).view().unwrap();
        layout_agrees(&view, &log.state, &log.entries);
    }
}

#[test]
fn none_without_a_log() {
    let refusal = |state: &[u64], entries: &[u64]| LogRef::new(state, entries).view().unwrap_err().refusal();
    let (mut state, mut entries) = (vec![0; 527], vec![0; 4096]);
    assert_eq!(refusal(&state, &entries), Some(Refusal::NotWellFormed));
    words::fresh(&mut state, &mut entries, 1);
    words::step(&mut state, &mut entries, 0, Step::Become);
    assert_eq!(refusal(&state[1..], &entries), Some(Refusal::WrongLength));
    assert_eq!(refusal(&state, &entries[1..]), Some(Refusal::WrongLength));
    for length in [511, 513] {
        assert_eq!(refusal(&state, &entries[..length]), Some(Refusal::WrongLength));
    }
    assert_eq!(LogRef::new(&state, &entries[..512]).view().map(|view| view.capacity().words()), Ok(512));
    state[1] |= 7 << 60;
    assert_eq!(refusal(&state, &entries), Some(Refusal::NotWellFormed));
}
