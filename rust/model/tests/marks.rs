//! Compares the model's marks with words and answers that were worked out by hand from their description.

use model::layout::{ENTRY_WORDS, STATE_WORDS};
use model::marks::{self, MARK_WORDS, Mark};
use model::{Answer, Step, words};

const DONE: Answer = Answer::Done;

/// A log of one client with these values as entries, each in a ledger of its own.
fn log(values: &[u64]) -> (Vec<u64>, Vec<u64>) {
    let (mut state, mut entries) = (vec![0; STATE_WORDS], vec![0; ENTRY_WORDS]);
    words::fresh(&mut state, &mut entries, 1);
    let mut step = |step| assert!(!matches!(words::step(&mut state, &mut entries, 0, step), Answer::Refused(_)));
    step(Step::Become);
    step(Step::Fetch);
    for &value in values {
        for taken in [Step::Create, Step::Append, Step::Write(value), Step::CloseOwn] {
            step(taken);
        }
    }
    (state, entries)
}

/// The buffer that begins with these words.
fn buffer(words: &[u64]) -> Vec<u64> {
    let mut buffer = words.to_vec();
    buffer.resize(MARK_WORDS, 0);
    buffer
}

#[test]
fn set_drop_and_read() {
    let ((state, entries), (later, more)) = (log(&[7]), log(&[7, 8]));
    let mut kept = buffer(&[]);
    assert_eq!(marks::set(&state, &entries, &mut kept, 5), DONE);
    assert_eq!(marks::set(&later, &more, &mut kept, 6), DONE);
    assert_eq!(marks::set(&later, &more, &mut kept, 1 << 63), DONE);
    assert_eq!(kept, buffer(&[5, 0x0008_0000_0000_0000, 6, 0x0010_0000_0000_0000, 1 << 63, 0x0010_0000_0000_0000]));
    let mut output = [3; 3];
    assert_eq!(marks::read(&later, &more, &kept, 6, &mut output[..1]), Err(16));
    assert_eq!(marks::read(&later, &more, &kept, 5, &mut output), Ok(1));
    assert_eq!(output, [7, 3, 3]);
    assert_eq!(marks::drop(&later, &more, &mut kept, 5), DONE);
    assert_eq!(kept, buffer(&[6, 0x0010_0000_0000_0000, 1 << 63, 0x0010_0000_0000_0000]));
    assert_eq!(marks::read(&later, &more, &kept, 5, &mut []), Err(23));
    assert_eq!(marks::drop(&later, &more, &mut kept, 5), Answer::Refused(23));
    assert_eq!(marks::set(&later, &more, &mut kept, 6), Answer::Refused(21));
}

#[test]
fn name_zero_and_full() {
    let (state, entries) = log(&[]);
    let mut kept = buffer(&[]);
    for name in 1..=32 {
        assert_eq!(marks::set(&state, &entries, &mut kept, 0), Answer::Refused(21));
        assert_eq!(marks::drop(&state, &entries, &mut kept, 0), Answer::Refused(23));
        assert_eq!(marks::read(&state, &entries, &kept, 0, &mut []), Err(23));
        assert_eq!(marks::set(&state, &entries, &mut kept, name), DONE);
    }
    assert_eq!(marks::set(&state, &entries, &mut kept, 33), Answer::Refused(22));
    assert_eq!(marks::set(&state, &entries, &mut kept, 32), Answer::Refused(21));
    assert_eq!(marks::set(&state, &entries, &mut kept, 0), Answer::Refused(21));
    assert_eq!(marks::read(&state, &entries, &kept, 32, &mut []), Ok(0));
}

#[test]
fn well_formed() {
    const ONE: u64 = 0x0008_0000_0000_0000;
    let taken = |words: &[u64]| marks::kept(&buffer(words), 1).is_some();
    assert_eq!(marks::kept(&buffer(&[5, ONE, 6, 0]), 1).unwrap()[0], Mark { name: 5, count: 1 });
    assert!(taken(&[]));
    assert!(taken(&[u64::MAX, 0]));
    assert!(!taken(&[5, ONE | 1]), "a stray bit");
    assert!(!taken(&[5, ONE | ONE >> 1]), "a stray bit below the count");
    assert!(!taken(&[0, ONE]), "a zero name with a count");
    assert!(!taken(&[5, ONE, 0, 1]), "a zero name with a stray bit");
    assert!(!taken(&[0, 0, 5, ONE]), "a mark behind a zero pair");
    assert!(!taken(&[5, ONE, 6, 0, 5, 0]), "a name kept twice");
    assert!(!taken(&[5, 2 * ONE]), "a count above the log's");
}

// Lengths come before any content, and the log's faults before the name's.
#[test]
fn orders() {
    let (mut state, mut entries) = log(&[]);
    for length in [0, 62, 63, 65, 66] {
        assert_eq!(marks::set(&[1; STATE_WORDS], &entries, &mut vec![1; length], 0), Answer::Refused(1));
    }
    assert_eq!(marks::drop(&state[..526], &entries, &mut [1; MARK_WORDS], 0), Answer::Refused(1));
    assert_eq!(marks::read(&state, &entries[1..], &[1; MARK_WORDS], 0, &mut []), Err(1));
    assert_eq!(marks::set(&state, &entries, &mut [1; MARK_WORDS], 0), Answer::Refused(2));
    entries[0] = 1;
    assert_eq!(marks::drop(&state, &entries, &mut [0; MARK_WORDS], 0), Answer::Refused(2));
    entries[0] = 0;
    state[0] |= 1;
    assert_eq!(marks::read(&state, &entries, &[0; MARK_WORDS], 0, &mut []), Err(2));
}
