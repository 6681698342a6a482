//! Steps of which only some words reached a disk: the logs are well formed, and have less than was answered.
//!
//! docs/INTEGRATION.md lists these cases for callers that store the buffers themselves.

use cindrolf::{EntryNumber, Error, Log, Refusal, Step};

/// A fresh log of two clients after these steps.
fn after(steps: &[(u64, Step)]) -> Log {
    let mut log = Log::fresh(2).unwrap();
    for &(client, step) in steps {
        let _ = log.take(client, step).unwrap();
    }
    log
}

/// The log before a step, with only this word of the state as the step left it.
fn torn(before: &Log, client: u64, step: Step, word: usize) -> Log {
    let mut whole = before.clone();
    let _ = whole.take(client, step).unwrap();
    let mut state = before.state().to_vec();
    assert_ne!(state[word], whole.state()[word]);
    state[word] = whole.state()[word];
    Log::from_words(&state, before.entries()).expect("well formed")
}

const LEADS: [(u64, Step); 4] = [(0, Step::BECOME), (0, Step::FETCH), (0, Step::CREATE), (0, Step::APPEND)];

// The client believes that its ledger is listed: its writes are answered, and no reading has them.
#[test]
fn half_an_append_loses_every_write_after_it() {
    let mut log = torn(&after(&LEADS[..3]), 0, Step::APPEND, 1);
    assert_eq!(log.write(0, 201).unwrap().number, EntryNumber(0));
    assert_eq!(log.write(0, 202).unwrap().number, EntryNumber(1));
    assert_eq!(log.read_chain(&mut [0; cindrolf::ENTRY_WORDS]), Ok(0));
}

// The new leader believes that the old ledger is fenced: the old leader goes on, and the new one never gets to write.
#[test]
fn half_a_close_last_leaves_no_fence() {
    let taken_over = [&LEADS[..], &[(1, Step::NAME), (1, Step::BECOME), (1, Step::FETCH)]].concat();
    let mut log = torn(&after(&taken_over), 1, Step::CLOSE_LAST, 2);
    assert_eq!(log.write(0, 201).unwrap().number, EntryNumber(0));
    assert_eq!(log.finish(1), Err(Error::Refused(Refusal::ImpossibleMemory)));
    assert_eq!(log.write(0, 202).unwrap().number, EntryNumber(1));
}

// The client goes on to its next ledger, and the one before stays open within the list.
#[test]
fn half_a_close_own_leaves_two_open_ledgers() {
    let mut log = torn(&after(&LEADS), 0, Step::CLOSE_OWN, 1);
    log.create(0).unwrap();
    let _ = log.append(0).unwrap();
    let open = log.view().list().filter(|&ledger| log.view().ledger(ledger).unwrap().open).count();
    assert_eq!(open, 2);
}

// Of a write, either half alone is no log.
#[test]
fn half_a_write_is_no_log() {
    let before = after(&LEADS);
    let mut whole = before.clone();
    whole.write(0, 201).unwrap();
    let halves = [(whole.state(), before.entries()), (before.state(), whole.entries())];
    for (state, entries) in halves {
        assert_eq!(Log::from_words(state, entries), Err(Error::Refused(Refusal::NotWellFormed)));
    }
}
