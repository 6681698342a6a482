//! Compares the model's plans with words, counts and logs that were worked out by hand from their description.

use model::layout::{ENTRY_WORDS, Head, STATE_WORDS};
use model::plans::{Counts, forecast, parts, run, take, word};
use model::rights::all;
use model::{Answer, Step, words};

fn fresh(client_count: u64) -> (Vec<u64>, Vec<u64>) {
    let (mut state, mut entries) = (vec![7; STATE_WORDS], vec![7; ENTRY_WORDS]);
    assert_eq!(words::fresh(&mut state, &mut entries, client_count), Answer::Done);
    (state, entries)
}

fn counts(entries: u64, ledgers: u64, refusals: u64) -> Counts {
    Counts { entries, ledgers, refusals }
}

// N B A F L K C P W O in the first hexadecimal digit, the client in the next two, the value in the rest.
#[test]
fn step_words() {
    let order = [
        Step::Name,
        Step::Become,
        Step::Abdicate,
        Step::Fetch,
        Step::CloseLast,
        Step::Finish,
        Step::Create,
        Step::Append,
        Step::Write(0xABC),
        Step::CloseOwn,
    ];
    let digits = [
        0x0010_0000_0000_0000,
        0x1010_0000_0000_0000,
        0x2010_0000_0000_0000,
        0x3010_0000_0000_0000,
        0x4010_0000_0000_0000,
        0x5010_0000_0000_0000,
        0x6010_0000_0000_0000,
        0x7010_0000_0000_0000,
        0x8010_0000_0000_0ABC,
        0x9010_0000_0000_0000,
    ];
    for (step, digits) in order.into_iter().zip(digits) {
        assert_eq!(word(1, step), Some(digits), "{step:?}");
        assert_eq!(parts(digits), Some((1, step)));
    }
    for number in 0xA..=0xF {
        assert_eq!(parts(number << 60 | 0x000F_0000_0000_0001), None);
    }
    assert_eq!(parts(0x3FFF_FFFF_FFFF_FFFF), Some((255, Step::Fetch)), "the value plays no part");
    assert_eq!(parts(0x8FFF_FFFF_FFFF_FFFF), Some((255, Step::Write((1 << 52) - 1))));
    assert_eq!(word(256, Step::Name), None);
    assert_eq!(word(0, Step::Write(1 << 52)), None);
    assert_eq!(word(0, Step::WriteScores(&[0])), None);
}

// Client 0 leads and writes; 1 is named and takes over; both may lead for a while.
const HANDOVER: [u64; 18] = [
    0x1000_0000_0000_0000, // 0 becomes
    0x3000_0000_0000_0000, // 0 fetches
    0x6000_0000_0000_0000, // 0 creates
    0x7000_0000_0000_0000, // 0 appends
    0x8000_0000_0000_0007, // 0 writes
    0xB000_0000_0000_0000, // no step: 25
    0x0010_0000_0000_0000, // 1 is named
    0x1010_0000_0000_0000, // 1 becomes
    0x3010_0000_0000_0000, // 1 fetches
    0x9000_0000_0000_0000, // 0 closes its own
    0x4010_0000_0000_0000, // 1 closes the last: behind
    0x3010_0000_0000_0000, // 1 fetches
    0x4010_0000_0000_0000, // 1 closes the last: was closed
    0x8010_0000_0000_0008, // 1 writes: 8
    0x6010_0000_0000_0000, // 1 creates
    0x7010_0000_0000_0000, // 1 appends
    0x8100_0000_0000_0009, // client 16 writes: 3
    0x8010_0000_0000_0009, // 1 writes
];

#[test]
fn answers() {
    let (mut state, mut entries) = fresh(2);
    let given = HANDOVER.map(|word| take(&mut state, &mut entries, &all(2), word));
    use Answer::{Behind, Done, Entry, Refused, WasClosed};
    let written = |number| Entry { number, place: 0 };
    let refusals = [Refused(25), Refused(8), Refused(3)];
    let expected = [
        [Done, Done, Done, Done, written(0), refusals[0], Done, Done, Done],
        [Done, Behind, Done, WasClosed, refusals[1], Done, Done, refusals[2], written(1)],
    ];
    assert_eq!(given.as_slice(), expected.as_flattened());
}

#[test]
fn budgets() {
    let rows = [
        (0, 0, counts(0, 0, 0)),
        (3, 3, counts(0, 1, 0)),
        (5, 5, counts(1, 1, 0)),
        (6, 6, counts(1, 1, 1)),
        (13, 13, counts(1, 1, 1)),
        (17, 17, counts(1, 2, 3)),
        (18, 18, counts(2, 2, 3)),
        (19, 18, counts(2, 2, 3)),
        (u64::MAX, 18, counts(2, 2, 3)),
    ];
    for (budget, taken, expected) in rows {
        let (mut state, mut entries) = fresh(2);
        assert_eq!(forecast(&state, &entries, &all(2), &HANDOVER, budget), expected);
        assert!((&state, &entries) == (&fresh(2).0, &fresh(2).1), "the forecast changes nothing");
        assert_eq!(run(&mut state, &mut entries, &all(2), &HANDOVER, budget), taken);
        let head = Head::load(state[0]).0;
        assert_eq!((head.entry_count, head.next_ledger), (expected.entries, 1 + expected.ledgers));
    }
}

// Every step counts, whatever the buffers; a word that names no step has its refusal before the lengths.
#[test]
fn no_log() {
    let (state, entries) = fresh(2);
    let cases = [(&state[1..], &entries[..], all(2)), (&state, &entries[1..], all(2)), (&state, &entries, vec![0; 15])];
    let damaged = vec![1; STATE_WORDS];
    let malformed = [(&damaged[..], &entries[..], all(2)), (&state, &entries, all(3))];
    for (number, (state, entries, rights)) in
        cases.into_iter().map(|case| (1, case)).chain(malformed.map(|case| (2, case)))
    {
        let (mut after, mut stored) = (state.to_vec(), entries.to_vec());
        for word in HANDOVER {
            let refusal = if word >> 60 == 0xB { 25 } else { number };
            assert_eq!(take(&mut after, &mut stored, &rights, word), Answer::Refused(refusal));
        }
        for (budget, taken) in [(0, 0), (4, 4), (18, 18), (u64::MAX, 18)] {
            assert_eq!(forecast(state, entries, &rights, &HANDOVER, budget), counts(0, 0, taken));
            assert_eq!(run(&mut after, &mut stored, &rights, &HANDOVER, budget), taken);
        }
        assert!(after == state && stored == entries);
    }
}

#[test]
fn under_rights() {
    let (mut state, mut entries) = fresh(2);
    let mut rights = all(2);
    rights[0] = 0xFF40_0000_0000_0000; // all but the right to write
    assert_eq!(forecast(&state, &entries, &rights, &HANDOVER, 5), counts(0, 1, 1));
    assert_eq!(run(&mut state, &mut entries, &rights, &HANDOVER, 5), 5);
    assert_eq!(Head::load(state[0]).0.entry_count, 0);
    assert_eq!(take(&mut state, &mut entries, &rights, HANDOVER[4]), Answer::Refused(24));
}
