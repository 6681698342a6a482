//! Single-bit changes of marks: which of them the library takes, counted by hand; and all of them beside five logs.

use cindrolf::{Error, Log, MARK_WORDS, MarkName, Refusal};
use compare::sides::Sides;
use compare::{call, logs, sweep};

/// A log of one client with so many entries.
fn log(entries: u64) -> Log {
    let mut log = Log::fresh(1).unwrap();
    for step in [Log::become_leader, Log::fetch, Log::create] {
        step(&mut log, 0).unwrap();
    }
    let _ = log.append(0).unwrap();
    for value in 0..entries {
        log.write(0, value).unwrap();
    }
    log
}

/// The words and bits of these marks whose change the library takes, each on all three calls.
fn taken(log: &Log, marks: &[u64; MARK_WORDS]) -> Vec<(usize, u32)> {
    let absent = MarkName([0xAA; 8]);
    let mut taken = vec![];
    for (word, bit) in (0..MARK_WORDS).flat_map(|word| (0..64).map(move |bit| (word, bit))) {
        let mut changed = *marks;
        changed[word] ^= 1 << bit;
        let before = changed;
        let read = log.read_mark(&changed, absent, &mut []);
        assert_eq!(log.drop_mark(&mut changed, absent).err(), read.err());
        assert_eq!(changed, before);
        let refusal = read.unwrap_err();
        if refusal == Error::Refused(Refusal::MarkNotKept) {
            taken.push((word, bit));
            assert_eq!(log.set_mark(&mut changed, absent), Ok(()));
        } else {
            assert_eq!(refusal, Error::Refused(Refusal::NotWellFormed));
            assert_eq!(log.set_mark(&mut changed, absent), Err(refusal));
            assert_eq!(changed, before);
        }
    }
    taken
}

// The first pair may get any name, at no entry.
#[test]
fn changes_of_no_mark() {
    let names: Vec<_> = (0..64).map(|bit| (0, bit)).collect();
    assert_eq!(taken(&log(2), &[0; MARK_WORDS]), names);
}

// One mark, of name 1 at 2 of 2 entries: its name may be any but 0, its count may fall to 0, and the next pair may get any name but 1.
#[test]
fn changes_of_one_mark() {
    let log = log(2);
    let mut marks = [0; MARK_WORDS];
    log.set_mark(&mut marks, MarkName::from_word(1)).unwrap();
    let expected = (1..64).map(|bit| (0, bit)).chain([(1, 52)]).chain((1..64).map(|bit| (2, bit)));
    assert_eq!(taken(&log, &marks), expected.collect::<Vec<_>>());
}

#[test]
fn every_change_beside_five_logs() {
    let mut sides = Sides::new(call::library);
    for log in logs::all() {
        sweep::mark_changes(call::library, &mut sides, &log).unwrap();
    }
}
