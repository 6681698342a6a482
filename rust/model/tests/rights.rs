//! Compares the model's rights with words and answers that were worked out by hand from their description.

use model::layout::{ENTRY_WORDS, STATE_WORDS};
use model::rights::{RIGHTS_WORDS, all, allows, bit, well_formed};
use model::source::{Source, Taken};
use model::{Answer, Step, words};

const TEN: u64 = 0xFFC0_0000_0000_0000;

// The bits from the most significant: N B A F L K C P W O.
const BITS: [(Step, u64); 11] = [
    (Step::Name, 0x8000_0000_0000_0000),
    (Step::Become, 0x4000_0000_0000_0000),
    (Step::Abdicate, 0x2000_0000_0000_0000),
    (Step::Fetch, 0x1000_0000_0000_0000),
    (Step::CloseLast, 0x0800_0000_0000_0000),
    (Step::Finish, 0x0400_0000_0000_0000),
    (Step::Create, 0x0200_0000_0000_0000),
    (Step::Append, 0x0100_0000_0000_0000),
    (Step::Write(7), 0x0080_0000_0000_0000),
    (Step::WriteScores(&[7]), 0x0080_0000_0000_0000),
    (Step::CloseOwn, 0x0040_0000_0000_0000),
];

/// The rights that begin with these words.
fn rights(words: &[u64]) -> Vec<u64> {
    let mut rights = words.to_vec();
    rights.resize(RIGHTS_WORDS, 0);
    rights
}

fn fresh(client_count: u64) -> (Vec<u64>, Vec<u64>) {
    let (mut state, mut entries) = (vec![7; STATE_WORDS], vec![7; ENTRY_WORDS]);
    assert_eq!(words::fresh(&mut state, &mut entries, client_count), Answer::Done);
    (state, entries)
}

#[test]
fn bits() {
    for (step, expected) in BITS {
        assert_eq!(bit(step), expected, "{step:?}");
        for (other, _) in BITS {
            assert_eq!(allows(&rights(&[0, expected]), 1, other), bit(other) == expected, "{step:?} {other:?}");
            assert!(!allows(&rights(&[0, expected]), 0, other));
        }
    }
    assert_eq!(all(2), rights(&[TEN, TEN]));
    assert_eq!(all(16), vec![TEN; 16]);
}

#[test]
fn what_is_well_formed() {
    for count in 1..=16 {
        assert!(well_formed(&rights(&[]), count));
        assert!(well_formed(&all(count), count));
    }
    assert!(!well_formed(&all(3), 2), "a word beyond the count");
    assert!(well_formed(&rights(&[0, 1 << 54]), 2));
    assert!(!well_formed(&rights(&[0, 1 << 53]), 2), "a bit outside the ten");
    assert!(!well_formed(&rights(&[1]), 2), "a bit outside the ten");
    assert!(!well_formed(&rights(&[0, 0, 1 << 63]), 2), "a right of no client");
}

// Lengths of all three, content of all three, the client, the scores, the right, and then the step's own.
#[test]
fn orders() {
    let (mut state, mut entries) = fresh(2);
    let none = rights(&[]);
    for length in [0, 1, 15, 17, 32] {
        let short = vec![1; length];
        assert_eq!(words::step_with(&mut [1; 527], &mut entries, &short, 9, Step::Name), Answer::Refused(1));
        assert_eq!(words::step_with(&mut state, &mut entries, &short, 9, Step::Name), Answer::Refused(1));
    }
    assert_eq!(words::step_with(&mut state[1..], &mut entries, &[1; 16], 9, Step::Name), Answer::Refused(1));
    assert_eq!(words::step_with(&mut state, &mut entries[1..], &[1; 16], 9, Step::Name), Answer::Refused(1));
    assert_eq!(words::step_with(&mut [1; 527], &mut entries, &none, 9, Step::Name), Answer::Refused(2));
    let mut step = |lent: &[u64], client, step| words::step_with(&mut state, &mut entries, lent, client, step);
    assert_eq!(step(&[1; 16], 9, Step::Name), Answer::Refused(2));
    assert_eq!(step(&all(3), 9, Step::Name), Answer::Refused(2));
    for (taken, bit) in BITS {
        assert_eq!(step(&none, 2, taken), Answer::Refused(3));
        assert_eq!(step(&none, 0, taken), Answer::Refused(24));
        assert_eq!(step(&rights(&[TEN & !bit, TEN]), 0, taken), Answer::Refused(24));
        assert_eq!(step(&rights(&[bit]), 1, taken), Answer::Refused(24), "another's right");
    }
    assert_eq!(step(&none, 1, Step::WriteScores(&[])), Answer::Refused(18));
    assert_eq!(step(&none, 1, Step::WriteScores(&[373])), Answer::Refused(19));
    assert_eq!(step(&none, 1, Step::WriteScores(&[372])), Answer::Refused(24));
    assert_eq!(step(&none, 1, Step::Write(1 << 52)), Answer::Refused(24));
    assert_eq!(step(&all(2), 1, Step::Write(1 << 52)), Answer::Refused(7));
}

// A guest that leads: it goes on writing and to its next ledger, and is not named again once another is.
#[test]
fn guest() {
    let (mut state, mut entries) = fresh(2);
    for taken in [Step::Become, Step::Fetch, Step::Create, Step::Append] {
        assert_eq!(words::step(&mut state, &mut entries, 0, taken), Answer::Done);
    }
    let lent = rights(&[0x3FC0_0000_0000_0000, TEN]);
    let mut step = |client, step| words::step_with(&mut state, &mut entries, &lent, client, step);
    assert_eq!(step(0, Step::Write(7)), Answer::Entry { number: 0, place: 0 });
    assert_eq!(step(1, Step::Name), Answer::Done);
    assert_eq!(step(0, Step::Name), Answer::Refused(24));
    assert_eq!(step(0, Step::Write(8)), Answer::Entry { number: 1, place: 1 });
    for taken in [Step::CloseOwn, Step::Create, Step::Append] {
        assert_eq!(step(0, taken), Answer::Done);
    }
    assert_eq!(step(0, Step::WriteScores(&[40])), Answer::Entry { number: 2, place: 0 });
    assert_eq!(step(0, Step::Abdicate), Answer::Done);
    assert_eq!(step(0, Step::Become), Answer::Refused(24));
}

// In LedgerChaining's terms a missing right is a limit, and changes nothing.
#[test]
fn limits() {
    let mut source = Source::init(2);
    let before = source.clone();
    assert_eq!(source.step_with(false, 0, Step::Become), Taken::Limit(24));
    assert_eq!(source.step_with(false, 0, Step::Fetch), Taken::Forbidden);
    assert_eq!(source.step_with(false, 2, Step::Become), Taken::Forbidden);
    assert_eq!(source, before);
    assert!(source.forbids_with(false, 0, 24) && !source.forbids_with(false, 0, 7));
    assert!(!source.forbids_with(true, 0, 24) && source.forbids_with(true, 0, 7));
    assert!(!source.forbids_with(false, 2, 24) && source.forbids_with(false, 2, 3));
    for step in [Step::Become, Step::Fetch, Step::Create, Step::Append] {
        assert_eq!(source.step_with(true, 0, step), Taken::Accepted(Answer::Done));
    }
    assert_eq!(source.step_with(false, 0, Step::WriteScores(&[])), Taken::Limit(18));
    assert_eq!(source.step_with(false, 0, Step::WriteScores(&[40])), Taken::Limit(24));
    assert_eq!(source.step_with(false, 0, Step::Write(1 << 52)), Taken::Limit(24));
    assert_eq!(source.step_with(true, 0, Step::Write(1 << 52)), Taken::Limit(11));
}
