//! The reference's examples through the crate, on the proved library.

use cindrolf::{
    Capacity, CloseLast, ENTRY_WORDS, EntryNumber, Error, Finish, Forecast, Kind, LedgerNumber, LedgerPlace, Log,
    LogMut, LogRef, MarkName, Position, Progress,
};
use cindrolf::{
    MARK_WORDS, MARKS_LIMIT, RIGHTS_WORDS, Refusal, Right, Rights, SCORE_LIMIT, SCORES_LIMIT, STATE_WORDS, Stage, Step,
    StepWord, calls, ledger_of, value_of,
};

fn refused<T>(refusal: Refusal) -> Result<T, Error> {
    Err(Error::Refused(refusal))
}

fn at(number: u64, place: u64) -> Result<Position, Error> {
    Ok(Position { number: EntryNumber(number), place: LedgerPlace(place) })
}

fn writing(clients: u64) -> Log {
    let mut log = Log::fresh(clients).unwrap();
    for step in [Log::become_leader, Log::fetch, Log::create] {
        assert_eq!(step(&mut log, 0), Ok(()));
    }
    assert_eq!(log.append(0), Ok(Progress::Done));
    log
}

#[test]
fn marked() {
    let mut log = Log::fresh(3).unwrap();
    assert_eq!(log.state()[..4], [0x0000040006000000, 0x0800020000000000, 0x0800020000000000, 0x0800020000000000]);
    assert_eq!(log.state()[4], 0);
    assert_eq!(log.name(0), refused(Refusal::AlreadyNamed));
    assert_eq!(log.become_leader(1), refused(Refusal::NotNamed));
    assert_eq!(log.abdicate(0), refused(Refusal::DoesNotLead));
    let mut log = writing(3);
    assert_eq!(log.write(0, 1 << 52), refused(Refusal::ValueTooWide));
    assert_eq!(log.write(0, (1 << 52) - 1), at(0, 0));
    assert_eq!(log.close_own(0), Ok(Progress::Done));
    assert_eq!(log.state()[17], 0x0080000000000000);
}

// Listed between others, an empty ledger is closed without a fence and reads as an empty part. A fenced one is behind.
#[test]
fn empty_ledgers() {
    let mut log = writing(2);
    assert_eq!(log.write(0, 5), at(0, 0));
    for closed in [LedgerNumber(1), LedgerNumber(2)] {
        assert_eq!(log.close_own(0), Ok(Progress::Done));
        let ledger = log.view().ledger(closed).unwrap();
        assert!(!ledger.open && !ledger.fenced);
        assert_eq!(log.view().client(0).unwrap().stage, Stage::Creating);
        assert_eq!(log.create(0), Ok(()));
        assert_eq!(log.append(0), Ok(Progress::Done));
    }
    assert_eq!(log.write(0, 6), at(1, 0));
    assert_eq!(log.read_ledger(LedgerNumber(2)), Ok(&[][..]));
    assert_eq!(log.read_ledger(LedgerNumber(3)), Ok(&log.entries()[1..2]));

    let mut log = writing(2);
    for step in [Log::name, Log::become_leader, Log::fetch] {
        assert_eq!(step(&mut log, 1), Ok(()));
    }
    assert_eq!(log.close_last(1), Ok(CloseLast::Done));
    assert_eq!(log.close_own(0), Ok(Progress::Behind));
}

// A client that has lost the lead is told so, however wide its value. A fence is looked at after the value.
#[test]
fn wide_values() {
    let wide = 1 << 52;
    let mut log = Log::fresh(2).unwrap();
    assert_eq!(log.write(2, wide), refused(Refusal::UnknownClient));
    assert_eq!(log.write(0, wide), refused(Refusal::DoesNotLead));
    for step in [Log::become_leader, Log::fetch, Log::create] {
        assert_eq!(step(&mut log, 0), Ok(()));
        assert_eq!(log.write(0, wide), refused(Refusal::OtherStage));
    }
    assert_eq!(log.append(0), Ok(Progress::Done));
    assert_eq!(log.write(0, wide), refused(Refusal::ValueTooWide));
    for step in [Log::name, Log::become_leader, Log::fetch] {
        assert_eq!(step(&mut log, 1), Ok(()));
    }
    assert_eq!(log.close_last(1), Ok(CloseLast::Done));
    assert_eq!(log.write(0, wide), refused(Refusal::ValueTooWide));
    assert_eq!(log.write(0, wide - 1), refused(Refusal::LedgerFenced));
    // Client 0 writes and remembers no ledger, which no history leads to.
    let mut state = log.state().to_vec();
    state[1] = 0xD008_0200_0000_0000;
    let mut log = Log::from_words(&state, log.entries()).unwrap();
    assert_eq!(log.write(0, wide), refused(Refusal::ImpossibleMemory));
}

#[test]
fn lengths_and_counts() {
    assert_eq!(Log::fresh(16).map(|_| ()), Ok(()));
    assert_eq!(Log::fresh(17).map(|_| ()), refused(Refusal::ClientCount));
    assert_eq!(Log::fresh(0).map(|_| ()), refused(Refusal::ClientCount));
    let log = Log::fresh(1).unwrap();
    assert_eq!(Log::from_words(&log.state()[1..], log.entries()), refused(Refusal::WrongLength));
    assert_eq!(Log::from_words(&[0; STATE_WORDS], log.entries()), refused(Refusal::NotWellFormed));
    assert_eq!(calls::name(&mut [], &mut [], 0), refused(Refusal::WrongLength));
}

#[test]
fn full() {
    let mut log = writing(1);
    for entry in 0..ENTRY_WORDS as u64 {
        assert_eq!(log.write(0, entry), at(entry, entry));
    }
    let before = log.clone();
    assert_eq!(log.write(0, 0), refused(Refusal::LogFull));
    assert_eq!(log, before);
    let part = log.read_ledger(LedgerNumber(1)).unwrap();
    assert!(std::ptr::eq(part, log.entries()), "the very part of the entry buffer");
    assert!(part.iter().all(|&word| ledger_of(word) == Some(LedgerNumber(1))));
    assert_eq!(log.read_ledger(LedgerNumber(2)), refused(Refusal::NotListed));
    let mut output = [0; ENTRY_WORDS];
    assert_eq!(log.read_chain(&mut output[1..]), refused(Refusal::OutputTooShort));
    assert_eq!(output, [0; ENTRY_WORDS]);
    assert_eq!(log.read_chain(&mut output), Ok(ENTRY_WORDS));
}

// A log of 512 entry words is full at 512, and has no use for the words of a longer output.
#[test]
fn small() {
    let mut log = Log::fresh_with(2, Capacity::Small).unwrap();
    assert_eq!((log.state().len(), log.entries().len()), (527, 512));
    assert_eq!(log.become_leader(0), Ok(()));
    assert_eq!(log.fetch(0), Ok(()));
    assert_eq!(log.create(0), Ok(()));
    assert_eq!(log.append(0), Ok(Progress::Done));
    for entry in 0..512 {
        assert_eq!(log.write(0, entry), at(entry, entry));
    }
    let before = log.clone();
    assert_eq!(log.write(0, 0), refused(Refusal::LogFull));
    assert_eq!(log.write_scores(0, &[40]), refused(Refusal::LogFull));
    assert_eq!(log, before);
    let (mut marks, mut output) = ([0; MARK_WORDS], [u64::MAX; 513]);
    assert_eq!(log.set_mark(&mut marks, mark("full")), Ok(()));
    assert_eq!(marks[1], 512 << 51);
    assert_eq!(log.read_mark(&marks, mark("full"), &mut output[..511]), refused(Refusal::OutputTooShort));
    assert_eq!(log.read_mark(&marks, mark("full"), &mut output), Ok(512));
    assert_eq!(log.read_chain(&mut output[..512]), Ok(512));
    assert!(output[..512].iter().copied().eq(0..512) && output[512] == u64::MAX);
    marks[1] = 513 << 51;
    assert_eq!(log.drop_mark(&mut marks, mark("full")), refused(Refusal::NotWellFormed));
    assert_eq!(Log::from_words(log.state(), log.entries()).map(|log| log.capacity()), Ok(Capacity::Small));
}

// The same words are a log of either capacity as long as the count fits.
#[test]
fn capacities() {
    assert_eq!((Capacity::Small.words(), Capacity::Large.words()), (512, 4096));
    for words in [0, 511, 513, 4095, 4097] {
        assert_eq!(Capacity::from_words(words), None);
        let (mut state, mut entries) = (vec![0; STATE_WORDS], vec![0; words]);
        assert_eq!(calls::fresh(&mut state, &mut entries, 1), refused(Refusal::WrongLength));
        assert_eq!(LogRef::new(&state, &entries).view().map(|_| ()), refused(Refusal::WrongLength));
    }
    assert_eq!(Log::fresh(1).unwrap().capacity(), Capacity::Large);
    assert_eq!(Log::fresh_with(17, Capacity::Small), refused(Refusal::ClientCount));
    let mut log = writing(1);
    for entry in 0..512 {
        log.write(0, entry).unwrap();
    }
    let small = Log::from_words(log.state(), &log.entries()[..512]).unwrap();
    assert_eq!(small.capacity(), Capacity::Small);
    log.write(0, 512).unwrap();
    assert!(log.well_formed());
    assert_eq!(Log::from_words(log.state(), &log.entries()[..512]), refused(Refusal::NotWellFormed));
}

// Numbers go on over the whole log, and places begin at 0 in each ledger.
#[test]
fn places() {
    let mut log = writing(2);
    assert_eq!(log.write(0, 1), at(0, 0));
    assert_eq!(log.write_scores(0, &[40]), at(1, 1));
    assert_eq!(log.close_own(0), Ok(Progress::Done));
    assert_eq!(log.create(0), Ok(()));
    assert_eq!(log.append(0), Ok(Progress::Done));
    assert_eq!(log.write_scores(0, &[40]), at(2, 0));
    assert_eq!(log.write(0, 1 << 52), refused(Refusal::ValueTooWide));
    assert_eq!(log.write(0, 1), at(3, 1));
    let part = log.read_ledger(LedgerNumber(2)).unwrap();
    assert_eq!(part, &log.entries()[2..4]);
}

#[test]
fn borrowed() {
    let (mut state, mut entries) = (vec![5; STATE_WORDS], vec![5; ENTRY_WORDS]);
    let mut log = LogMut::new(&mut state, &mut entries);
    assert!(!log.well_formed());
    assert_eq!(log.fresh(2), Ok(()));
    assert!(log.as_ref().well_formed());
    assert_eq!(log.become_leader(u64::MAX), refused(Refusal::UnknownClient));
    assert_eq!((log.state().len(), log.entries().len()), (STATE_WORDS, ENTRY_WORDS));
    let read = log.as_ref();
    assert!(std::ptr::eq(read.state(), log.state()) && std::ptr::eq(read.entries(), log.entries()));
}

#[test]
fn scores() {
    let written = |scores: &[u16]| {
        let mut log = writing(1);
        assert_eq!(log.write_scores(0, scores), at(0, 0));
        value_of(log.entries()[0])
    };
    assert_eq!(written(&[0]), 1_000_000_000_000);
    assert_eq!(written(&[40]), 100_000_000_000);
    assert_eq!(written(&[SCORE_LIMIT]), 501);
    assert_eq!(written(&[0, 40, 372, 40]), 1_200_000_000_501);
    assert_eq!(written(&[0; SCORES_LIMIT]), 4_000_000_000_000_000);
    assert_eq!(written(&[372; SCORES_LIMIT]), 2_004_000);
}

// Those of the scores stand after the client's number, and before its lead.
#[test]
fn refused_scores() {
    let mut log = writing(3);
    let before = log.clone();
    assert_eq!(log.write_scores(3, &[]), refused(Refusal::UnknownClient));
    for client in [0, 1] {
        assert_eq!(log.write_scores(client, &[]), refused(Refusal::ScoreCount));
        assert_eq!(log.write_scores(client, &[0; SCORES_LIMIT + 1]), refused(Refusal::ScoreCount));
        assert_eq!(log.write_scores(client, &[373; SCORES_LIMIT + 1]), refused(Refusal::ScoreCount));
        assert_eq!(log.write_scores(client, &[SCORE_LIMIT + 1]), refused(Refusal::ScoreTooHigh));
        let mut last = [0; SCORES_LIMIT];
        last[SCORES_LIMIT - 1] = u16::MAX;
        assert_eq!(log.write_scores(client, &last), refused(Refusal::ScoreTooHigh));
    }
    assert_eq!(log.write_scores(1, &[0]), refused(Refusal::DoesNotLead));
    assert_eq!(log, before);
    assert_eq!(calls::write_scores(&mut [], &mut [], 3, &[]), refused(Refusal::WrongLength));
    assert_eq!(
        calls::write_scores(&mut [0; STATE_WORDS], &mut [0; ENTRY_WORDS], 3, &[]),
        refused(Refusal::NotWellFormed)
    );
}

fn mark(text: &str) -> MarkName {
    text.parse().unwrap()
}

// Marks at 0, 1 and 2 entries, the second dropped and set again: it stands last then, and has the new count.
#[test]
fn marks() {
    let mut log = writing(1);
    let (mut kept, mut output) = ([0; MARK_WORDS], [9; 3]);
    assert_eq!(log.set_mark(&mut kept, mark("start")), Ok(()));
    log.write(0, 7).unwrap();
    assert_eq!(log.set_mark(&mut kept, mark("pre-wash")), Ok(()));
    log.write(0, 8).unwrap();
    assert_eq!(log.as_mut().set_mark(&mut kept, MarkName([0xFF; 8])), Ok(()));
    let words = [0x7374_6172_7400_0000, 0, 0x7072_652D_7761_7368, 1 << 51, u64::MAX, 2 << 51, 0];
    assert_eq!(kept[..7], words);
    assert_eq!(log.read_mark(&kept, mark("pre-wash"), &mut output), Ok(1));
    assert_eq!(output, [7, 9, 9]);
    assert_eq!(log.read_mark(&kept, mark("pre-wash"), &mut []), refused(Refusal::OutputTooShort));
    assert_eq!(log.as_ref().read_mark(&kept, mark("start"), &mut []), Ok(0));

    assert_eq!(log.set_mark(&mut kept, mark("pre-wash")), refused(Refusal::MarkNameTaken));
    assert_eq!(log.as_ref().drop_mark(&mut kept, mark("pre-wash")), Ok(()));
    assert_eq!(kept[2..5], [u64::MAX, 2 << 51, 0]);
    assert_eq!(log.drop_mark(&mut kept, mark("pre-wash")), refused(Refusal::MarkNotKept));
    assert_eq!(log.read_mark(&kept, mark("pre-wash"), &mut []), refused(Refusal::MarkNotKept));
    assert_eq!(log.set_mark(&mut kept, mark("pre-wash")), Ok(()));
    assert_eq!(kept[4..7], [0x7072_652D_7761_7368, 2 << 51, 0]);
    assert_eq!(log.as_mut().read_mark(&kept, mark("pre-wash"), &mut output), Ok(2));
    assert_eq!(output, [7, 8, 9]);
}

// Name 0 is never kept, a name that is taken is told before the want of room, and lengths before any content.
#[test]
fn refused_marks() {
    let (log, zero) = (writing(1), MarkName([0; 8]));
    let mut kept = [0; MARK_WORDS];
    for name in 1..=MARKS_LIMIT as u64 {
        assert_eq!(log.set_mark(&mut kept, zero), refused(Refusal::MarkNameTaken));
        assert_eq!(log.drop_mark(&mut kept, zero), refused(Refusal::MarkNotKept));
        assert_eq!(log.read_mark(&kept, zero, &mut []), refused(Refusal::MarkNotKept));
        assert_eq!(log.set_mark(&mut kept, MarkName::from_word(name)), Ok(()));
    }
    let before = kept;
    assert_eq!(log.set_mark(&mut kept, mark("more")), refused(Refusal::MarksFull));
    assert_eq!(log.set_mark(&mut kept, MarkName::from_word(32)), refused(Refusal::MarkNameTaken));
    assert_eq!(log.set_mark(&mut kept, zero), refused(Refusal::MarkNameTaken));
    assert_eq!(log.set_mark(&mut kept[1..], zero), refused(Refusal::WrongLength));
    assert_eq!(log.drop_mark(&mut [], zero), refused(Refusal::WrongLength));
    assert_eq!(calls::read_mark(&[], &[], &kept, zero, &mut []), refused(Refusal::WrongLength));
    assert_eq!(log.drop_mark(&mut [1; MARK_WORDS], zero), refused(Refusal::NotWellFormed));
    let empty = LogRef::new(&[0; STATE_WORDS], &[0; ENTRY_WORDS]);
    assert_eq!(empty.read_mark(&kept, zero, &mut []), refused(Refusal::NotWellFormed));
    assert_eq!(empty.set_mark(&mut kept[1..], zero), refused(Refusal::WrongLength));
    assert_eq!(kept, before);
}

// Two leaders race: each answer that is neither done nor a refusal.
#[test]
fn behind_and_was_closed() {
    let mut log = writing(3);
    log.write(0, 1).unwrap();
    for client in [1, 2] {
        log.name(client).unwrap();
        log.become_leader(client).unwrap();
        log.fetch(client).unwrap();
    }
    assert_eq!(log.close_last(1), Ok(CloseLast::Done));
    assert_eq!(log.close_last(2), Ok(CloseLast::Behind));
    assert_eq!(log.close_own(0), Ok(Progress::Behind));
    assert_eq!(log.finish(1), Ok(Finish::Done));
    log.fetch(2).unwrap();
    assert_eq!(log.close_last(2), Ok(CloseLast::WasClosed));
    log.create(1).unwrap();
    log.create(2).unwrap();
    assert_eq!(log.append(2), Ok(Progress::Done));
    assert_eq!(log.append(1), Ok(Progress::Behind));
}

// A leader that died between its fence and its close: the ledger is recovering, nobody writes to it, and another leader finishes it.
#[test]
fn recovering() {
    let mut log = writing(3);
    log.write(0, 1).unwrap();
    let fence = |log: &mut Log, client| {
        log.name(client).unwrap();
        log.become_leader(client).unwrap();
        log.fetch(client).unwrap();
        assert_eq!(log.close_last(client), Ok(CloseLast::Done));
    };
    fence(&mut log, 1);
    let ledger = log.view().ledger(LedgerNumber(1)).unwrap();
    assert_eq!((ledger.open, ledger.version, ledger.fenced, ledger.recovering), (false, 1, true, true));
    assert_eq!(log.state()[17], 0x00E0000000000000);
    let client = log.view().client(1).unwrap();
    let memory = client.ledger.unwrap();
    assert_eq!((client.stage, memory.open, memory.version, memory.recovering), (Stage::Finishing, false, 1, true));
    assert_eq!(log.write(0, 2), refused(Refusal::LedgerFenced));
    assert_eq!(log.create(1), refused(Refusal::OtherStage));
    assert_eq!(log.finish(0), refused(Refusal::OtherStage));
    assert_eq!(log.finish(2), refused(Refusal::DoesNotLead));

    let before = log.state()[17];
    fence(&mut log, 2);
    assert_eq!(log.state()[17], before);
    assert_eq!(log.finish(2), Ok(Finish::Done));
    assert_eq!(log.state()[17], 0x0140000000000000);
    assert_eq!(log.finish(1), Ok(Finish::Behind));
    assert_eq!([1, 2].map(|client| log.view().client(client).unwrap().stage), [Stage::Fetching, Stage::Creating]);
    // What client 2 remembers stays until it creates a ledger.
    assert!(log.view().client(2).unwrap().ledger.unwrap().recovering);
    log.create(2).unwrap();
    assert!(!log.view().client(2).unwrap().ledger.unwrap().recovering);
}

// A guest that leads: it goes on writing, to its next ledger too, and is not named again once another is.
#[test]
fn guest() {
    let (host, guest) = (0, 1);
    let mut log = Log::fresh(2).unwrap();
    let mut rights = Rights::all(2).unwrap();
    let mut permitted = log.under(&rights);
    assert_eq!(permitted.name(guest), Ok(()));
    assert_eq!(permitted.become_leader(guest), Ok(()));
    assert_eq!(permitted.fetch(guest), Ok(()));
    assert_eq!(permitted.create(guest), Ok(()));
    assert_eq!(permitted.append(guest), Ok(Progress::Done));
    rights.revoke(guest, Right::Name);
    rights.revoke(guest, Right::Become);
    let mut permitted = log.under(&rights);
    assert_eq!(permitted.write(guest, 7), at(0, 0));
    assert_eq!(permitted.name(host), Ok(()));
    assert_eq!(permitted.name(guest), refused(Refusal::MissingRight));
    assert_eq!(permitted.write_scores(guest, &[40]), at(1, 1));
    assert_eq!(permitted.close_own(guest), Ok(Progress::Done));
    assert_eq!(permitted.create(guest), Ok(()));
    assert_eq!(permitted.append(guest), Ok(Progress::Done));
    assert_eq!(permitted.write(guest, 8), at(2, 0));
    // The host takes over, and fences it.
    assert_eq!(permitted.become_leader(host), Ok(()));
    assert_eq!(permitted.fetch(host), Ok(()));
    assert_eq!(permitted.close_last(host), Ok(CloseLast::Done));
    assert_eq!(permitted.write(guest, 9), refused(Refusal::LedgerFenced));
    assert_eq!(permitted.finish(host), Ok(Finish::Done));
    assert_eq!(permitted.abdicate(guest), Ok(()));
    assert_eq!(permitted.become_leader(guest), refused(Refusal::MissingRight));
    // Without rights nothing is asked of them.
    assert_eq!(log.name(guest), Ok(()));
}

// A guest that is behind stops leading, and is still named: without the right to be named it leads again, without that to become not.
#[test]
fn guest_after_a_behind() {
    let (host, guest) = (0, 1);
    let mut log = Log::fresh(2).unwrap();
    for client in [host, guest] {
        let _ = log.name(client);
        for step in [Log::become_leader, Log::fetch, Log::create] {
            assert_eq!(step(&mut log, client), Ok(()));
        }
    }
    assert_eq!(log.append(host), Ok(Progress::Done));
    let mut rights = Rights::all(2).unwrap();
    rights.revoke(guest, Right::Name);
    assert_eq!(log.under(&rights).append(guest), Ok(Progress::Behind));
    assert_eq!(log.view().named_leader(), guest);
    assert_eq!(log.clone().under(&rights).become_leader(guest), Ok(()));
    rights.revoke(guest, Right::Become);
    assert_eq!(log.under(&rights).become_leader(guest), refused(Refusal::MissingRight));
}

// Lengths, words, the client, the scores, the right, and then the step's own.
#[test]
fn refused_rights() {
    let mut log = writing(2);
    let before = log.clone();
    let mut rights = Rights::all(2).unwrap();
    rights.revoke(0, Right::Write);
    let mut permitted = log.under(&rights);
    assert_eq!(permitted.write(2, 7), refused(Refusal::UnknownClient));
    assert_eq!(permitted.write(0, 1 << 52), refused(Refusal::MissingRight));
    assert_eq!(permitted.write_scores(0, &[]), refused(Refusal::ScoreCount));
    assert_eq!(permitted.write_scores(0, &[373]), refused(Refusal::ScoreTooHigh));
    assert_eq!(permitted.write_scores(0, &[40]), refused(Refusal::MissingRight));
    assert_eq!(permitted.write(1, 1 << 52), refused(Refusal::DoesNotLead));
    for (client, bit) in [(0, 53), (1, 0), (2, 63), (15, 54)] {
        let mut words = *Rights::all(2).unwrap().words();
        words[client] |= 1 << bit;
        assert_eq!(log.as_mut().under(&Rights::from_words(words)).write(2, 7), refused(Refusal::NotWellFormed));
    }
    let (mut state, mut entries) = (log.state().to_vec(), log.entries().to_vec());
    for length in [0, RIGHTS_WORDS - 1, RIGHTS_WORDS + 1] {
        let lent = vec![1; length];
        assert_eq!(calls::write_with(&mut state, &mut entries, &lent, 2, 7), refused(Refusal::WrongLength));
        assert_eq!(calls::name_with(&mut [1; STATE_WORDS], &mut entries, &lent, 2), refused(Refusal::WrongLength));
        assert_eq!(calls::write_scores_with(&mut state, &mut entries, &lent, 2, &[]), refused(Refusal::WrongLength));
    }
    assert!(log == before && state == before.state() && entries == before.entries());
}

/// A handover from client 0 to client 1, with steps that are refused.
fn handover() -> Vec<StepWord> {
    let steps = [
        (0, Step::BECOME),
        (0, Step::FETCH),
        (0, Step::CREATE),
        (0, Step::APPEND),
        (0, Step::write(7)),
        (0, Step::FETCH), // refused: another stage
        (1, Step::NAME),
        (1, Step::BECOME),
        (1, Step::FETCH),
        (1, Step::CLOSE_LAST),
        (0, Step::write(8)), // refused: fenced
        (1, Step::FINISH),
        (0, Step::ABDICATE), // refused, where the right is missing
        (1, Step::CREATE),
        (1, Step::APPEND),
        (16, Step::write(9)), // refused: unknown
        (1, Step::write(9)),
    ];
    let mut plan: Vec<_> = steps.map(|(client, step)| StepWord::new(client, step).unwrap()).into();
    plan.push(StepWord(10 << 60)); // refused: no step
    plan.extend([StepWord::new(0, Step::CLOSE_OWN).unwrap()]); // behind
    plan
}

// A run is its steps made singly, up to the budget; a forecast of it says what it then adds.
#[test]
fn plans() {
    let mut rights = Rights::all(2).unwrap();
    rights.revoke(0, Right::Abdicate);
    let plan = handover();
    let added = [(0, 0, 0, 0), (4, 0, 1, 0), (6, 1, 1, 1), (11, 1, 1, 2), (13, 1, 1, 3), (16, 1, 2, 4), (18, 2, 2, 5)];
    for (budget, entries, ledgers, refusals) in added.into_iter().chain([(19, 2, 2, 5), (u64::MAX, 2, 2, 5)]) {
        let mut log = Log::fresh(2).unwrap();
        let before = log.clone();
        assert_eq!(log.forecast(&rights, &plan, budget), Forecast { entries, ledgers, refusals }, "{budget}");
        assert_eq!(log, before);
        assert_eq!(log.run_plan(&rights, &plan, budget), budget.min(19));
        assert_eq!(log.view().entry_count(), entries);
        assert_eq!(log.view().next_ledger(), Some(LedgerNumber(1 + ledgers)));
        let mut singly = before;
        let mut permitted = singly.under(&rights);
        for word in &plan[..budget.min(19) as usize] {
            let client = word.client();
            let Some(step) = word.step() else { continue };
            let _ = match step.kind() {
                Kind::Name => permitted.name(client),
                Kind::Become => permitted.become_leader(client),
                Kind::Abdicate => permitted.abdicate(client),
                Kind::Fetch => permitted.fetch(client),
                Kind::CloseLast => permitted.close_last(client).map(drop),
                Kind::Finish => permitted.finish(client).map(drop),
                Kind::Create => permitted.create(client),
                Kind::Append => permitted.append(client).map(drop),
                Kind::Write => permitted.write(client, step.value()).map(drop),
                Kind::CloseOwn => permitted.close_own(client).map(drop),
            };
        }
        assert_eq!(log, singly, "{budget}");
    }
}

// Buffers that hold no log, or rights of none: every step counts, and nothing changes.
#[test]
fn refused_plans() {
    let (plan, all) = (handover(), Rights::all(2).unwrap());
    let refused = |taken| Forecast { entries: 0, ledgers: 0, refusals: taken };
    let (mut state, mut entries) = ([1; STATE_WORDS], [2; ENTRY_WORDS]);
    for (budget, taken) in [(0, 0), (1, 1), (18, 18), (19, 19), (20, 19), (u64::MAX, 19)] {
        assert_eq!(LogRef::new(&state, &entries).forecast(&all, &plan, budget), refused(taken));
        assert_eq!(LogMut::new(&mut state, &mut entries).run_plan(&all, &plan, budget), taken);
        assert_eq!(LogMut::new(&mut [], &mut entries).run_plan(&all, &plan, budget), taken);
        let mut log = Log::fresh(2).unwrap();
        let strange = Rights::all(3).unwrap();
        assert_eq!(log.as_mut().forecast(&strange, &plan, budget), refused(taken));
        assert_eq!(log.run_plan(&strange, &plan, budget), taken);
        assert_eq!(log, Log::fresh(2).unwrap());
        let (mut kept, mut stored) = (log.state().to_vec(), log.entries().to_vec());
        for length in [0, RIGHTS_WORDS - 1, RIGHTS_WORDS + 1] {
            let (lent, words) = (vec![0; length], StepWord::words(&plan));
            assert_eq!(calls::forecast(&kept, &stored, &lent, words, budget), refused(taken));
            assert_eq!(calls::run_plan(&mut kept, &mut stored, &lent, words, budget), taken);
        }
        assert!(kept == log.state() && stored == log.entries());
    }
    assert!(state == [1; STATE_WORDS] && entries == [2; ENTRY_WORDS]);
}
