//! The adviser: what it says at every stage, and how soon a named leader that follows it writes.

use cindrolf::{Error, Kind, Log, LogRef, Refusal};
use model::Step;
use model::histories::Profile;
use model::layout::{Client, Entry, Head, Ledger, NONE, client_index, ledger_index};
use model::random::Random;
use model::source::{Metadata, Source, Status};
use std::collections::HashSet;

/// Two clients, of which client 1 is named, and both are at this stage and remember ledger 1, which is fenced or not.
fn both_at(stage: u64, fenced: u64) -> (Vec<u64>, Vec<u64>) {
    let (mut state, entries) = (vec![0; 527], vec![0; 4096]);
    state[0] = Head { entry_count: 0, next_ledger: 2, list_length: 0, leader: 1, client_count: 2 }.word();
    let client =
        Client { leads: (stage != 0) as u64, stage, list_version: 0, ledger: 1, open: 1, version: 0, recovering: 0 };
    state[client_index(0)] = client.word();
    state[client_index(1)] = client.word();
    state[ledger_index(1)] = Ledger { open: 1, version: 0, fenced, recovering: 0 }.word();
    (state, entries)
}

// Worked out by hand: the stage, the fence, what the named client is told, and what the other is told.
#[test]
fn every_stage_and_both_clients() {
    use Kind::*;
    let rows = [
        (0, 0, Become, None),
        (1, 0, Fetch, Some(Abdicate)),
        (2, 0, CloseLast, Some(Abdicate)),
        (3, 0, Create, Some(Abdicate)),
        (4, 0, Append, Some(Abdicate)),
        (5, 0, Write, Some(Abdicate)),
        (6, 0, Finish, Some(Abdicate)),
        (0, 1, Become, None),
        (1, 1, Fetch, Some(Abdicate)),
        (2, 1, CloseLast, Some(Abdicate)),
        (3, 1, Create, Some(Abdicate)),
        (4, 1, Append, Some(Abdicate)),
        (5, 1, CloseOwn, Some(Abdicate)),
        (6, 1, Finish, Some(Abdicate)),
    ];
    for (stage, fenced, named, other) in rows {
        let (state, entries) = both_at(stage, fenced);
        let log = LogRef::new(&state, &entries);
        assert_eq!(log.advise(1), Ok(Some(named)), "stage {stage}, fenced {fenced}");
        assert_eq!(log.advise(0), Ok(other), "stage {stage}, fenced {fenced}");
    }
}

#[test]
fn refusals() {
    let (mut state, entries) = both_at(3, 0);
    let refused = |state: &[u64], entries: &[u64], client| LogRef::new(state, entries).advise(client).unwrap_err();
    for client in [2, 3, 15, 16, 256, 1 << 32, u64::MAX] {
        assert_eq!(refused(&state, &entries, client), Error::Refused(Refusal::UnknownClient));
    }
    // Lengths come first, then the words, then the client.
    state[526] = 1;
    assert_eq!(refused(&state, &entries, 2), Error::Refused(Refusal::NotWellFormed));
    assert_eq!(refused(&state[1..], &entries, 2), Error::Refused(Refusal::WrongLength));
    assert_eq!(refused(&state, &entries[1..], 2), Error::Refused(Refusal::WrongLength));
}

// It looks at no limit, and no ledger isn't a fenced one.
#[test]
fn what_it_does_not_look_at() {
    let (mut state, mut entries) = both_at(3, 0);
    state[0] = Head { next_ledger: 256, ..Head::load(state[0]).0 }.word();
    state[ledger_index(1)..=ledger_index(255)].fill(Ledger { open: 1, version: 0, fenced: 1, recovering: 0 }.word());
    assert_eq!(LogRef::new(&state, &entries).advise(1), Ok(Some(Kind::Create)));
    let mut log = Log::from_words(&state, &entries).unwrap();
    assert_eq!(log.create(1), Err(Error::Refused(Refusal::NoLedgerNumber)));

    (state, entries) = both_at(5, 0);
    state[0] = Head { entry_count: 4096, ..Head::load(state[0]).0 }.word();
    entries.fill(Entry { ledger: 1, client: 0, value: 7 }.word());
    let mut log = Log::from_words(&state, &entries).unwrap();
    assert_eq!(log.advise(1), Ok(Some(Kind::Write)));
    assert_eq!(log.write(1, 7), Err(Error::Refused(Refusal::LogFull)));

    (state, entries) = both_at(5, 1);
    let memory = Client { leads: 1, stage: 5, list_version: 0, ledger: 0, open: 0, version: NONE, recovering: 0 };
    state[client_index(1)] = memory.word();
    assert_eq!(LogRef::new(&state, &entries).advise(1), Ok(Some(Kind::Write)));
}

/// Takes the advised step. Whether it was a write, which must be accepted; no other step may be refused either.
fn follow(log: &mut Log, client: u64) -> bool {
    let advice = log.advise(client).expect("the client is known").expect("the named client has a step");
    assert!(!matches!(advice, Kind::Name | Kind::Abdicate), "a named client is told to {advice}");
    let _ = log.take(client, cindrolf::Step::new(advice, (1 << 52) - 1)).unwrap();
    advice == Kind::Write
}

/// The steps that the named leader takes by the advice, the first write included.
fn steps_to_a_write(source: &Source) -> usize {
    let (state, entries) = source.buffers();
    let mut log = Log::from_words(&state, &entries).expect("a history leads to a log");
    (1..=20).find(|_| follow(&mut log, source.md_leader)).expect("it writes within twenty steps")
}

/// How many they are by the reference's table.
fn by_the_table(source: &Source) -> usize {
    let client = &source.c_state[source.md_leader as usize];
    let closed = |ledger: Metadata| !ledger.open && !ledger.recovering;
    let last = source.md_llist.last().map(|id| source.md_ledgers[id]);
    let fetching = last.map_or(4, |last| if closed(last) { 5 } else { 6 });
    let (ledger, stored) = (client.ledger, source.md_ledgers.get(&client.ledger.id));
    let same = stored.is_some_and(|stored| stored.version == ledger.version);
    let fenced = source.b_ledgers.get(&ledger.id).is_some_and(|ledger| ledger.fenced);
    match (client.status, client.llist_version < source.md_llist_version) {
        (Status::Waiting, _) => 1 + fetching,
        (Status::GetMdForClosing, _) => fetching,
        (Status::CloseLastLedger, false) if closed(ledger) => 4,
        (Status::CloseLastLedger, true) if closed(ledger) => 4 + fetching,
        (Status::CloseLastLedger, _) if same => 5,
        (Status::CloseLastLedger, _) if ledger.recovering => 2 + fetching,
        (Status::CloseLastLedger, _) => 1 + fetching,
        (Status::FinishLastLedger, _) if same => 4,
        (Status::FinishLastLedger, _) => 1 + fetching,
        (Status::PendingCreateLedger, false) => 3,
        (Status::PendingCreateLedger, true) => 3 + fetching,
        (Status::PendingAppendLedger, false) => 2,
        (Status::PendingAppendLedger, true) => 2 + fetching,
        (Status::HasOpenLedger, _) if fenced => 2 + fetching,
        (Status::HasOpenLedger, _) => 1,
    }
}

#[test]
fn a_named_leader_writes_at_the_tenth_step_or_earlier() {
    let mut random = Random::new(11);
    let mut counts = [0; 21];
    for round in 0..10_000 {
        let mut source = Source::init(random.between(1, 16));
        let profile = Profile::ALL[round % Profile::ALL.len()];
        for _ in 0..random.between(0, 120) {
            let (client, step) = profile.next(&mut random, &source);
            source.step(client, step);
        }
        assert!(source.md_next_lid <= 254 && source.next_entry_id < 4096, "there is room");
        let steps = steps_to_a_write(&source);
        assert_eq!(steps, by_the_table(&source), "{source:?}");
        counts[steps] += 1;
    }
    let greatest = counts.iter().rposition(|&count| count > 0);
    assert_eq!(greatest, Some(10), "{counts:?}");
}

/// Every log that two clients come to in so many steps and in no fewer.
fn exactly_after(steps: usize) -> Vec<Source> {
    let mut seen = HashSet::from([Source::init(2).buffers()]);
    let mut logs = vec![Source::init(2)];
    for _ in 0..steps {
        let next = logs.iter().flat_map(|log| {
            let all = (0..2).flat_map(|client| Step::ALL.map(|step| (client, step)));
            all.map(|(client, step)| {
                let mut log = log.clone();
                log.step(client, step);
                log
            })
        });
        logs = next.filter(|log| seen.insert(log.buffers())).collect();
    }
    logs
}

// Client 1 fetches a ledger that its owner has closed, and then the owner appends another.
#[test]
fn ten_steps_after_ten_and_after_no_fewer() {
    use Step::*;
    let leads = [(0, Become), (0, Fetch), (0, Create), (0, Append), (0, CloseOwn)];
    let overtaken = [(1, Name), (1, Become), (1, Fetch), (0, Create), (0, Append)];
    let mut source = Source::init(2);
    for (client, step) in leads.into_iter().chain(overtaken) {
        source.step(client, step);
    }
    let mut ten = vec![];
    for log in (0..=10).flat_map(exactly_after) {
        let steps = steps_to_a_write(&log);
        assert_eq!(steps, by_the_table(&log), "{log:?}");
        if steps == 10 {
            ten.push(log);
        }
    }
    assert_eq!(ten, [source]);
}
