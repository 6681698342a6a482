//! The decisions of a shared log through the boundary: the whole table, worked out by hand; ids; and numbers that name
//! nothing.

use cindrolf::raw;
use cindrolf::sharing::{Act, Phase, Seen, Turn, decide, request_id};
use std::num::NonZeroU32;

const ID: u64 = 77;

/// What is seen, in the order of the columns below. The append's row is the next one in `Next` and `Placed`.
const SEEN: [Seen; 9] = [
    Seen::Asked,
    Seen::Read { known: 5 },
    Seen::Next { known: 5, id: ID },
    Seen::Placed { known: 5, place: 5 },
    Seen::Accepted { id: ID },
    Seen::Refused,
    Seen::Silence,
    Seen::Stop,
    Seen::OtherHistory,
];

#[test]
fn the_whole_table() {
    use Act::{Append, Nothing, Read, Refuse, Tell, Try, Unknown, Withdraw};
    use Phase::{Asked, Current, Halted, Idle};
    let waiting = Phase::Waiting { id: ID };
    // In the order of SEEN: the phase that follows, and the act.
    let table = [
        (
            Idle,
            [Asked, Idle, Idle, Idle, Idle, Idle, Idle, Idle, Halted],
            [Try, Nothing, Nothing, Nothing, Nothing, Nothing, Nothing, Nothing, Nothing],
        ),
        (
            Asked,
            [Asked, Current, Asked, Asked, waiting, Asked, Asked, Idle, Halted],
            [Read, Try, Read, Read, Append, Read, Read, Withdraw, Withdraw],
        ),
        (
            Current,
            [Current, Current, Current, Current, waiting, Idle, Current, Idle, Halted],
            [Try, Try, Try, Try, Append, Refuse, Try, Withdraw, Withdraw],
        ),
        (
            waiting,
            [waiting, waiting, Idle, Idle, waiting, waiting, waiting, Idle, Halted],
            [Append, Append, Tell, Tell, Append, Append, Append, Unknown, Unknown],
        ),
        (Halted, [Halted; 9], [Withdraw, Nothing, Nothing, Nothing, Nothing, Nothing, Nothing, Nothing, Nothing]),
    ];
    for (from, phases, acts) in table {
        for ((seen, phase), act) in SEEN.into_iter().zip(phases).zip(acts) {
            assert_eq!(decide(from, seen), Ok(Turn { phase, act }), "{from:?} sees {seen:?}");
        }
    }
}

#[test]
fn another_row_is_read_past() {
    let waiting = Phase::Waiting { id: ID };
    let reads = Ok(Turn { phase: waiting, act: Act::Read });
    assert_eq!(decide(waiting, Seen::Next { known: 5, id: ID + 1 }), reads);
    assert_eq!(decide(waiting, Seen::Next { known: ID, id: 5 }), reads);
    assert_eq!(decide(waiting, Seen::Placed { known: 5, place: 6 }), reads);
    assert_eq!(decide(waiting, Seen::Placed { known: 0, place: u64::MAX }), reads);
    let largest = Phase::Waiting { id: u64::MAX };
    let tells = Ok(Turn { phase: Phase::Idle, act: Act::Tell });
    assert_eq!(decide(largest, Seen::Next { known: 0, id: u64::MAX }), tells);
    assert_eq!(decide(largest, Seen::Placed { known: u64::MAX, place: u64::MAX }), tells);
}

#[test]
fn without_an_id_nothing_is_sent() {
    for phase in [Phase::Asked, Phase::Current] {
        assert_eq!(decide(phase, Seen::Accepted { id: 0 }), Ok(Turn { phase: Phase::Idle, act: Act::Withdraw }));
        let waiting = Phase::Waiting { id: 1 };
        assert_eq!(decide(phase, Seen::Accepted { id: 1 }), Ok(Turn { phase: waiting, act: Act::Append }));
    }
}

#[test]
fn numbers_that_name_nothing() {
    let turn = |phase, id, seen, first, second| {
        // SAFETY: it takes numbers, any of them, and touches no memory.
        let turn = unsafe { raw::cindrolf_decide(phase, id, seen, first, second) };
        [turn.phase, turn.id, turn.act]
    };
    for phase in [5, 6, u64::MAX] {
        assert_eq!(turn(phase, ID, 4, ID, 0), [4, 0, 0], "phase {phase} is taken as halted");
    }
    for seen in [9, 10, u64::MAX] {
        assert_eq!(turn(3, ID, seen, 5, 5), [3, ID, 3], "{seen} is taken as silence");
    }
    assert_eq!(turn(1, ID, 6, 0, 0), [1, 0, 1], "no id but in phase waiting");
}

#[test]
fn ids() {
    let id = |start, count| request_id(NonZeroU32::new(start).expect("not 0"), count);
    assert_eq!(id(1, 0), 4_294_967_296);
    assert_eq!(id(1, u32::MAX), 8_589_934_591);
    assert_eq!(id(2, 0), 8_589_934_592);
    assert_eq!(id(u32::MAX, u32::MAX), u64::MAX);
    // SAFETY: it takes numbers, any of them, and touches no memory.
    let raw = |start, count| unsafe { raw::cindrolf_request_id(start, count) };
    for (start, count) in [(0, 0), (0, 7), (1 << 32, 0), (1, 1 << 32), (u64::MAX, u64::MAX)] {
        assert_eq!(raw(start, count), 0, "start {start}, count {count}");
    }
}
