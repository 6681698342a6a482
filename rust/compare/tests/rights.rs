//! Rights on the library: one bit alone, one bit more, all ten beside no rights, and the order of the first checks.

use compare::buffers::any_buffers;
use compare::call::{Buffers, library_step, library_step_with};
use compare::rights::any_rights;
use compare::sides::Sides;
use compare::{call, logs, sweep};
use model::histories::{any_client, with_any_input};
use model::layout::Head;
use model::random::Random;
use model::rights::{RIGHTS_WORDS, all};
use model::{Answer, Step};

/// The steps with the bits that the reference gives them, N B A F L K C P W O from the most significant.
const BITS: [(Step, u32); 11] = [
    (Step::Name, 63),
    (Step::Become, 62),
    (Step::Abdicate, 61),
    (Step::Fetch, 60),
    (Step::CloseLast, 59),
    (Step::Finish, 58),
    (Step::Create, 57),
    (Step::Append, 56),
    (Step::Write(7), 55),
    (Step::WriteScores(&[7]), 55),
    (Step::CloseOwn, 54),
];

fn refused(answer: Answer) -> Option<u64> {
    match answer {
        Answer::Refused(number) => Some(number),
        _ => None,
    }
}

/// What a step gives on a copy of the log, and the log afterwards.
fn with(log: &Buffers, rights: &[u64], client: u64, step: Step) -> (Answer, Vec<u64>, Vec<u64>) {
    let (mut state, mut entries) = (log.state.clone(), log.entries.clone());
    (library_step_with(&mut state, &mut entries, rights, client, step), state, entries)
}

fn without(log: &Buffers, client: u64, step: Step) -> (Answer, Vec<u64>, Vec<u64>) {
    let (mut state, mut entries) = (log.state.clone(), log.entries.clone());
    (library_step(&mut state, &mut entries, client, step), state, entries)
}

fn client_count(log: &Buffers) -> u64 {
    Head::load(log.state.first().copied().unwrap_or(0)).0.client_count
}

// Of every bit in every word, by each of three clients: a step passes by its own bit alone, and strays are refused.
#[test]
fn one_bit() {
    let log = &logs::all()[0].buffers;
    assert_eq!(client_count(log), 3);
    for (word, bit) in (0..RIGHTS_WORDS).flat_map(|word| (0..64).map(move |bit| (word, bit))) {
        let mut rights = [0; RIGHTS_WORDS];
        rights[word] = 1 << bit;
        for (client, (step, needed)) in (0..3).flat_map(|client| BITS.map(|row| (client, row))) {
            let expected = match (word, bit) {
                (3.., _) | (_, ..54) => Some(2),
                _ if word as u64 != client || bit != needed => Some(24),
                _ => refused(without(log, client, step).0),
            };
            assert_eq!(refused(with(log, &rights, client, step).0), expected, "{client} {step:?} {word} {bit}");
        }
    }
}

// On logs and rights of every kind: one bit more changes no answer but 24, and nothing that the step did.
#[test]
fn one_bit_more() {
    let (mut random, mut kept, mut gained) = (Random::new(8), 0, 0);
    for _ in 0..1_500 {
        let log = any_buffers(&mut random);
        let count = client_count(&log);
        for kind in Step::ALL {
            let (client, step) = (any_client(&mut random, count), with_any_input(&mut random, kind));
            let rights = any_rights(&mut random, count, client, step);
            let (word, bit) = (random.below(count.max(1)) as usize, 63 - random.below(10));
            let mut more = rights.clone();
            let Some(granted) = more.get_mut(word) else { continue };
            *granted |= 1 << bit;
            let before = with(&log, &rights, client, step);
            let after = with(&log, &more, client, step);
            if before.0 == Answer::Refused(24) {
                gained += u64::from(after.0 != before.0);
            } else {
                kept += u64::from(refused(before.0).is_none());
                assert!(before == after, "{client} {step:?} {rights:x?}, {word} {bit}: {:?} {:?}", before.0, after.0);
            }
        }
    }
    // Both kinds came up: steps that were taken, and steps that the new bit lets pass.
    assert!(kept > 100 && gained > 10, "{kept} {gained}");
}

#[test]
fn all_rights_beside_none() {
    let (mut random, mut taken) = (Random::new(9), 0);
    for _ in 0..1_500 {
        let log = any_buffers(&mut random);
        let count = client_count(&log);
        for kind in Step::ALL {
            let (client, step) = (any_client(&mut random, count), with_any_input(&mut random, kind));
            let plain = without(&log, client, step);
            taken += u64::from(refused(plain.0).is_none());
            assert!(with(&log, &all(count), client, step) == plain, "{client} {step:?}");
        }
    }
    assert!(taken > 100, "{taken}");
}

// A wrong length of any of the three, whatever the words of the others; then the words of any.
#[test]
fn lengths_before_words() {
    let log = logs::all().remove(1).buffers;
    let damaged = Buffers { state: vec![u64::MAX; 527], ..log.clone() };
    let short = Buffers { state: log.state[1..].to_vec(), ..log.clone() };
    for (step, _) in BITS {
        for length in [0, 1, 15, 17, 18, 32, 4096] {
            for words in [0, 1, u64::MAX] {
                for log in [&log, &damaged, &short] {
                    assert_eq!(with(log, &vec![words; length], 9, step).0, Answer::Refused(1), "{length} {step:?}");
                }
            }
        }
        assert_eq!(with(&short, &[1; RIGHTS_WORDS], 9, step).0, Answer::Refused(1));
        assert_eq!(with(&damaged, &[0; RIGHTS_WORDS], 9, step).0, Answer::Refused(2));
        assert_eq!(with(&log, &[1; RIGHTS_WORDS], 9, step).0, Answer::Refused(2));
        assert_eq!(with(&log, &[0; RIGHTS_WORDS], 9, step).0, Answer::Refused(3));
        assert_eq!(with(&log, &[0; RIGHTS_WORDS], 1, step).0, Answer::Refused(24));
    }
}

#[test]
fn every_change_on_five_logs() {
    let mut sides = Sides::new(call::library);
    for log in logs::all() {
        sweep::rights_changes(call::library, &mut sides, &log).unwrap();
    }
    assert_eq!(sides.tally.calls(), 5 * 2 * 1024 * 22);
}
