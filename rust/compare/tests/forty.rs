//! The sweep of forty logs finds planted faults that the sweep of the five of every run cannot find.

use compare::call::{self, Call, Lent, Outcome, Subject};
use compare::logs::{self, Named};
use compare::sides::Sides;
use compare::{forty, sweep};
use model::layout::{Client, ENTRY_WORDS, client_index};
use model::{Answer, Step};
use std::ops::Range;

/// The first report, with changes of these bits of each log.
fn first(subject: Subject, logs: &[Named], bits: fn(&Named) -> Range<usize>) -> Option<String> {
    let mut sides = Sides::new(subject);
    logs.iter().find_map(|log| sweep::changes(subject, &mut sides, log, bits(log)).err())
}

/// The bits of the head and of the clients.
fn clients(_: &Named) -> Range<usize> {
    0..64 * client_index(16)
}

/// The bits of the last entry word.
fn last_entry(log: &Named) -> Range<usize> {
    sweep::bits(log) - 64..sweep::bits(log)
}

// The check does not see that a client remembers a ledger as open that is recovering.
fn overlooks_open_and_recovering(call: Call, lent: &mut Lent) -> Outcome {
    if call != Call::WellFormed {
        return call::model(call, lent);
    }
    let kept = lent.state.to_vec();
    for word in &mut lent.state[client_index(0)..client_index(16)] {
        let (client, rest) = Client::load(*word);
        if client.recovering == 1 {
            *word = Client { open: 0, ..client }.word() | rest;
        }
    }
    let outcome = call::model(call, lent);
    lent.state.copy_from_slice(&kept);
    outcome
}

// A finish looks at the client's lead before it looks at the rest of the log.
fn finish_looks_at_the_lead_first(call: Call, lent: &mut Lent) -> Outcome {
    match (call, call::model(call, lent)) {
        (Call::Step(client, Step::Finish), Outcome::Answer(Answer::Refused(2)))
            if Client::load(lent.state[client_index(client)]).0.leads == 0 =>
        {
            Outcome::Answer(Answer::Refused(7))
        }
        (_, outcome) => outcome,
    }
}

/// The last entry word of a large log.
const LAST: usize = ENTRY_WORDS - 1;

// A create does not look at the ledger and the client of the last entry of a large log that is full.
fn create_overlooks_the_last_entry(call: Call, lent: &mut Lent) -> Outcome {
    match call {
        Call::Step(_, Step::Create) if lent.entries.len() == ENTRY_WORDS && !lent.entries[LAST - 1..].contains(&0) => {
            let kept = lent.entries[LAST];
            lent.entries[LAST] = (lent.entries[LAST - 1] >> 52 << 52) | (kept << 12 >> 12);
            let outcome = call::model(call, lent);
            lent.entries[LAST] = kept;
            outcome
        }
        call => call::model(call, lent),
    }
}

#[test]
fn finds_an_overlooked_memory() {
    let subject = overlooks_open_and_recovering;
    assert_eq!(first(subject, &logs::all(), clients), None);
    let report = first(subject, &forty::all(), clients).expect("the fault is found");
    assert!(report.contains("The log 'small and empty, client 1 finishes' with bit 42 of state word 2 "), "{report}");
    assert!(report.contains("gives WellFormed(true), the model WellFormed(false)"), "{report}");
}

#[test]
fn finds_a_lead_before_the_content() {
    let subject = finish_looks_at_the_lead_first;
    assert_eq!(first(subject, &logs::all(), clients), None);
    let report = first(subject, &forty::all(), clients).expect("the fault is found");
    assert!(report.contains("The log 'small and empty, client 1 finishes' with bit 63 of state word 2 "), "{report}");
    assert!(report.contains("gives Answer(Refused(7)), the model Answer(Refused(2))"), "{report}");
}

#[test]
fn finds_an_overlooked_entry() {
    let subject = create_overlooks_the_last_entry;
    assert_eq!(first(subject, &logs::all(), last_entry), None);
    let report = first(subject, &forty::all(), last_entry).expect("the fault is found");
    let log = "The log 'large, full, of five ledgers, client 1 creates' with bit 54 of entry word 4095 ";
    assert!(report.contains(log), "{report}");
    assert!(report.contains("gives Answer(Done), the model Answer(Refused(2))"), "{report}");
}
