//! The list and the totals: of a handover, of words that no history produces, and of no log.

use cindrolf::{
    ENTRY_WORDS, Error, LedgerNumber, LedgerSum, ListPlace, Log, LogMut, LogRef, Refusal, RunTotal, STATE_WORDS, Step,
    VALUE_LIMIT,
};

const NOT_LISTED: Error = Error::Refused(Refusal::NotListed);

/// Ledger 1 has two entries; ledger 2 was created and never appended; ledger 3 has one entry.
fn handover() -> Log {
    let mut log = Log::fresh(2).unwrap();
    let first = [Step::BECOME, Step::FETCH, Step::CREATE, Step::APPEND, Step::write(999_999_999_999), Step::write(1)];
    // Client 0 creates a ledger, and is replaced before it appends it.
    let abandoned = [Step::CLOSE_OWN, Step::CREATE];
    for step in first.into_iter().chain(abandoned) {
        let _ = log.take(0, step).unwrap();
    }
    let lead = [Step::NAME, Step::BECOME, Step::FETCH, Step::CLOSE_LAST, Step::CREATE, Step::APPEND];
    for step in lead.into_iter().chain([Step::write(500_000_000)]) {
        let _ = log.take(1, step).unwrap();
    }
    log
}

#[test]
fn of_a_handover() {
    let log = handover();
    let places = [1, 2].map(|place| log.ledger_at(ListPlace(place)));
    assert_eq!(places, [Ok(LedgerNumber(1)), Ok(LedgerNumber(3))]);
    for place in [0, 3, 255, 256, u64::MAX] {
        assert_eq!(log.ledger_at(ListPlace(place)), Err(NOT_LISTED));
    }
    assert_eq!(log.ledger_sum(LedgerNumber(1)), Ok(LedgerSum { entries: 2, sum: 1_000_000_000_000 }));
    assert_eq!(log.ledger_sum(LedgerNumber(3)), Ok(LedgerSum { entries: 1, sum: 500_000_000 }));
    for ledger in [0, 2, 4, 255, 256, u64::MAX] {
        assert_eq!(log.ledger_sum(LedgerNumber(ledger)), Err(NOT_LISTED));
    }
    let total = log.run_total().unwrap();
    assert_eq!(total, RunTotal { ones: 1, parts: 500_000_000, rounded: 1_001 });
    assert_eq!(total.to_string(), "1.000500000000");
}

// A full ledger of the greatest values is at all 255 places: 255 × 4,096 × (2^52 - 1) is 4,703,919,738,795,934,617,600.
#[test]
fn of_a_ledger_that_is_listed_255_times() {
    let mut state = [0; STATE_WORDS];
    state[0] = (4_096 << 51) | (2 << 42) | (255 << 34) | (1 << 25);
    state[1] = 0x0800_0200_0000_0000;
    state[17] = 1 << 63;
    state[272..].fill(1 << 56);
    let mut entries = [(1 << 56) | VALUE_LIMIT; ENTRY_WORDS];
    let total = RunTotal { ones: 4_703_919_738, parts: 795_934_617_600, rounded: 4_703_919_738_796 };
    let sum = LedgerSum { entries: 4_096, sum: 18_446_744_073_709_547_520 };

    let log = LogRef::new(&state, &entries);
    assert_eq!((log.ledger_sum(LedgerNumber(1)), log.run_total()), (Ok(sum), Ok(total)));
    assert_eq!(log.ledger_at(ListPlace(255)), Ok(LedgerNumber(1)));
    let log = LogMut::new(&mut state, &mut entries);
    assert_eq!((log.ledger_sum(LedgerNumber(1)), log.run_total()), (Ok(sum), Ok(total)));
    assert_eq!(log.ledger_at(ListPlace(256)), Err(NOT_LISTED));
}

#[test]
fn of_no_log() {
    let zeros = (&[0; STATE_WORDS][..], &[0; ENTRY_WORDS][..]);
    let short = (&zeros.0[1..], zeros.1);
    for ((state, entries), refusal) in [(short, Refusal::WrongLength), (zeros, Refusal::NotWellFormed)] {
        let (log, error) = (LogRef::new(state, entries), Error::Refused(refusal));
        assert_eq!(log.ledger_at(ListPlace(1)), Err(error));
        assert_eq!(log.ledger_sum(LedgerNumber(1)), Err(error));
        assert_eq!(log.run_total(), Err(error));
    }
}
