//! What each operation answers, and the numbers of answers at the C boundary.

use crate::{Error, Kind, Refusal};
use std::fmt;

/// The number of an entry, from 0: its index in the entry buffer.
#[derive(Clone, Copy, Debug, PartialEq, Eq, Hash, PartialOrd, Ord)]
pub struct EntryNumber(pub u64);

/// The place of an entry in its ledger, from 0: how many entries the ledger had before it.
#[derive(Clone, Copy, Debug, PartialEq, Eq, Hash, PartialOrd, Ord)]
pub struct LedgerPlace(pub u64);

/// A place in the chain reading, from 0.
#[derive(Clone, Copy, Debug, PartialEq, Eq, Hash, PartialOrd, Ord)]
pub struct ReadingPlace(pub u64);

/// Where an accepted write is stored.
#[derive(Clone, Copy, Debug, PartialEq, Eq, Hash)]
pub struct Position {
    /// The entry's number in the log.
    pub number: EntryNumber,
    /// Its place in its ledger.
    pub place: LedgerPlace,
}

/// The number of a ledger, from 1.
#[derive(Clone, Copy, Debug, PartialEq, Eq, Hash, PartialOrd, Ord)]
pub struct LedgerNumber(pub u64);

/// How closing the last ledger went.
#[derive(Clone, Copy, Debug, PartialEq, Eq, Hash)]
#[must_use = "a client that is behind has to fetch again"]
pub enum CloseLast {
    /// The ledger is fenced, or was when it was fetched. The client finishes it next.
    Done,
    /// The ledger was closed already when it was fetched. The client creates one next.
    WasClosed,
    /// The ledger was fenced or closed since it was fetched. The client fetches again.
    Behind,
}

/// How finishing a fenced ledger went.
#[derive(Clone, Copy, Debug, PartialEq, Eq, Hash)]
#[must_use = "a client that is behind has to fetch again"]
pub enum Finish {
    /// The ledger is closed. The client creates one next.
    Done,
    /// Another client finished it. The client fetches again.
    Behind,
}

/// How a step went in which another leader may have been faster: append or close own.
#[derive(Clone, Copy, Debug, PartialEq, Eq, Hash)]
#[must_use = "a client that is behind no longer leads"]
pub enum Progress {
    /// The step was taken.
    Done,
    /// Another leader was faster, and the client no longer leads.
    Behind,
}

/// How a step went, whichever it was: what [`take`](crate::Log::take) answers.
#[derive(Clone, Copy, Debug, PartialEq, Eq, Hash)]
#[must_use = "a client that is behind has to fetch again, or no longer leads"]
pub enum Answer {
    /// The step was taken.
    Done,
    /// From close last: the ledger was closed already.
    WasClosed,
    /// From close last, finish, append and close own: another leader was faster.
    Behind,
    /// From a write: where its entry is stored.
    Stored(Position),
}

impl Answer {
    /// Its number in the library: done, was closed and `behind` are 0 to 2, and an entry is 2^32 + 65,536 times its
    /// number + its place.
    pub const fn number(self) -> u64 {
        match self {
            Answer::Done => DONE,
            Answer::WasClosed => WAS_CLOSED,
            Answer::Behind => BEHIND,
            Answer::Stored(at) => ENTRY + at.number.0 * NUMBER_UNIT + at.place.0,
        }
    }
}

impl From<()> for Answer {
    fn from((): ()) -> Self {
        Answer::Done
    }
}

impl From<CloseLast> for Answer {
    fn from(answer: CloseLast) -> Self {
        match answer {
            CloseLast::Done => Answer::Done,
            CloseLast::WasClosed => Answer::WasClosed,
            CloseLast::Behind => Answer::Behind,
        }
    }
}

impl From<Finish> for Answer {
    fn from(answer: Finish) -> Self {
        match answer {
            Finish::Done => Answer::Done,
            Finish::Behind => Answer::Behind,
        }
    }
}

impl From<Progress> for Answer {
    fn from(answer: Progress) -> Self {
        match answer {
            Progress::Done => Answer::Done,
            Progress::Behind => Answer::Behind,
        }
    }
}

impl From<Position> for Answer {
    fn from(position: Position) -> Self {
        Answer::Stored(position)
    }
}

/// As the session program prints it: `ok`, `was`, `behind`, or `entry 3 place 0`.
impl fmt::Display for Answer {
    fn fmt(&self, f: &mut fmt::Formatter<'_>) -> fmt::Result {
        match self {
            Answer::Done => f.write_str("ok"),
            Answer::WasClosed => f.write_str("was"),
            Answer::Behind => f.write_str("behind"),
            Answer::Stored(at) => write!(f, "entry {} place {}", at.number.0, at.place.0),
        }
    }
}

/// The kind of step that a client should take next: any but name, which is for the election.
///
/// | Advice | Where the client |
/// |---|---|
/// | become | is named, and does not lead |
/// | abdicate | leads, and another is named |
/// | fetch, close last, finish, create, append, write | is named, and at the step's stage |
/// | close own | is named, and another leader has fenced its ledger |
pub type Advice = Kind;

const DONE: u64 = 0;
const WAS_CLOSED: u64 = 1;
const BEHIND: u64 = 2;
const REFUSED: u64 = 256;
const ENTRY: u64 = 1 << 32;
/// From the adviser: there is no step to take.
const NO_ADVICE: u64 = 15;

/// The unit of an entry's number in an answer; its place in its ledger is below it.
const NUMBER_UNIT: u64 = 1 << 16;

/// The error in a number that isn't one of the operation's own answers.
fn error(number: u64) -> Error {
    let refusal = number.checked_sub(REFUSED).and_then(Refusal::from_number);
    refusal.map_or(Error::UnknownAnswer(number), Error::Refused)
}

pub(crate) fn done(number: u64) -> Result<(), Error> {
    if number == DONE { Ok(()) } else { Err(error(number)) }
}

pub(crate) fn close_last(number: u64) -> Result<CloseLast, Error> {
    match number {
        DONE => Ok(CloseLast::Done),
        WAS_CLOSED => Ok(CloseLast::WasClosed),
        BEHIND => Ok(CloseLast::Behind),
        _ => Err(error(number)),
    }
}

pub(crate) fn finish(number: u64) -> Result<Finish, Error> {
    match number {
        DONE => Ok(Finish::Done),
        BEHIND => Ok(Finish::Behind),
        _ => Err(error(number)),
    }
}

pub(crate) fn progress(number: u64) -> Result<Progress, Error> {
    match number {
        DONE => Ok(Progress::Done),
        BEHIND => Ok(Progress::Behind),
        _ => Err(error(number)),
    }
}

pub(crate) fn entry(number: u64) -> Result<Position, Error> {
    match number.checked_sub(ENTRY) {
        Some(at) if at < ENTRY => {
            Ok(Position { number: EntryNumber(at / NUMBER_UNIT), place: LedgerPlace(at % NUMBER_UNIT) })
        }
        _ => Err(error(number)),
    }
}

/// A step is its kind's number. Name is never advised.
pub(crate) fn advice(number: u64) -> Result<Option<Advice>, Error> {
    match Kind::from_number(number) {
        _ if number == NO_ADVICE => Ok(None),
        None | Some(Kind::Name) => Err(error(number)),
        advised => Ok(advised),
    }
}

#[cfg(test)]
mod tests {
    use super::*;

    #[test]
    fn own_answers() {
        assert_eq!(done(0), Ok(()));
        assert_eq!(close_last(1), Ok(CloseLast::WasClosed));
        assert_eq!(close_last(2), Ok(CloseLast::Behind));
        assert_eq!(finish(2), Ok(Finish::Behind));
        assert_eq!(progress(2), Ok(Progress::Behind));
        let at = |number, place| Ok(Position { number: EntryNumber(number), place: LedgerPlace(place) });
        assert_eq!(entry(0x1_0000_0000), at(0, 0));
        assert_eq!(entry(0x1_0001_0000), at(1, 0));
        assert_eq!(entry(0x1_0FFF_0002), at(4095, 2));
        assert_eq!(entry(0x1_0FFF_0FFF), at(4095, 4095));
        for number in [0x1_0000_0000, 0x1_0001_0000, 0x1_0FFF_0002] {
            assert_eq!(entry(number).map(|at| Answer::from(at).number()), Ok(number));
        }
        assert_eq!([Answer::Done, Answer::WasClosed, Answer::Behind].map(Answer::number), [0, 1, 2]);
    }

    // Name is never advised.
    #[test]
    fn advised_steps() {
        use Kind::*;
        let steps = [Become, Abdicate, Fetch, CloseLast, Finish, Create, Append, Write, CloseOwn];
        for (number, step) in (1..).zip(steps) {
            assert_eq!(advice(number), Ok(Some(step)));
        }
        assert_eq!(advice(15), Ok(None));
        for number in [0, 10, 14, 16, 255, 256, 1 << 32] {
            assert_eq!(advice(number), Err(Error::UnknownAnswer(number)));
        }
    }

    #[test]
    fn refusals() {
        for &refusal in Refusal::ALL {
            let number = 256 + refusal.number();
            let refused = Error::Refused(refusal);
            assert_eq!(done(number), Err(refused));
            assert_eq!(close_last(number), Err(refused));
            assert_eq!(finish(number), Err(refused));
            assert_eq!(progress(number), Err(refused));
            assert_eq!(entry(number), Err(refused));
            assert_eq!(advice(number), Err(refused));
        }
    }

    // A number is unknown to an operation that can't answer it, even where another operation can.
    #[test]
    fn unknown_numbers() {
        for number in [3, 255, 256, 256 + 29, 65535, 65536, 0xFFFF_FFFF, 0x2_0000_0000] {
            let unknown = Error::UnknownAnswer(number);
            assert_eq!(done(number), Err(unknown));
            assert_eq!(close_last(number), Err(unknown));
            assert_eq!(finish(number), Err(unknown));
            assert_eq!(progress(number), Err(unknown));
            assert_eq!(entry(number), Err(unknown));
        }
        assert_eq!(done(2), Err(Error::UnknownAnswer(2)));
        assert_eq!(finish(1), Err(Error::UnknownAnswer(1)));
        assert_eq!(progress(1), Err(Error::UnknownAnswer(1)));
        assert_eq!(entry(0), Err(Error::UnknownAnswer(0)));
        assert_eq!(close_last(u64::MAX), Err(Error::UnknownAnswer(u64::MAX)));
    }
}
