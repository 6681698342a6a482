//! What a controller of a shared log does next: the drivers of engines call these decisions, and nothing else decides.
//!
//! A driver keeps the [`Phase`] and a copy of the log, made of the first rows of the engine's table. It reports what it
//! has [`Seen`], and does the [`Act`] that comes back. docs/SHARING.md says what a driver may report.
//!
//! A request whose row comes right after those that are known:
//!
//! ```
//! use cindrolf::sharing::{Act, Phase, Seen, Turn, decide, request_id};
//! use std::num::NonZeroU32;
//!
//! let id = request_id(NonZeroU32::MIN, 0); // the first request since this controller drew start number 1
//! let turn = decide(Phase::Idle, Seen::Asked)?;
//! assert_eq!(turn, Turn { phase: Phase::Asked, act: Act::Try });
//! let turn = decide(turn.phase, Seen::Accepted { id })?;
//! assert_eq!(turn, Turn { phase: Phase::Waiting { id }, act: Act::Append });
//! let turn = decide(turn.phase, Seen::Placed { known: 7, place: 7 })?;
//! assert_eq!(turn, Turn { phase: Phase::Idle, act: Act::Tell });
//! # Ok::<(), cindrolf::Error>(())
//! ```

use crate::{Error, raw};
use std::num::NonZeroU32;

/// What a controller is doing.
#[derive(Clone, Copy, Debug, Default, PartialEq, Eq, Hash)]
pub enum Phase {
    /// It has nothing to do.
    #[default]
    Idle,
    /// It was asked for a request.
    Asked,
    /// It was asked, and has read the rows since.
    Current,
    /// It has sent an append, and has no answer to give yet.
    Waiting {
        /// The id of the append.
        id: u64,
    },
    /// The engine has another history than the one that it knows: it stops until it is started again.
    Halted,
}

/// What a controller has seen. Rows may be counted as requests or as rows of the table, in all three places alike.
#[derive(Clone, Copy, Debug, PartialEq, Eq, Hash)]
pub enum Seen {
    /// Somebody asks for a request.
    Asked,
    /// A read that began after the latest turn is over. None of the rows that are new has the awaited id.
    Read {
        /// How many rows are known now.
        known: u64,
    },
    /// A read has come to a row.
    Next {
        /// How many rows are known, all of them before it.
        known: u64,
        /// The row's id.
        id: u64,
    },
    /// The engine's reply to the append.
    Placed {
        /// How many rows are known.
        known: u64,
        /// The place of the append's row, from 0.
        place: u64,
    },
    /// The request is accepted on the copy, at least one of its steps.
    Accepted {
        /// An id that no append ever had, as [`request_id`] gives it; or 0, which is none, and then the request is
        /// withdrawn.
        id: u64,
    },
    /// The request is refused on the copy, each of its steps.
    Refused,
    /// No reply came.
    Silence,
    /// The one who asked waits no longer.
    Stop,
    /// The engine's rows are not those that are known.
    OtherHistory,
}

/// What a controller is to do.
#[derive(Clone, Copy, Debug, PartialEq, Eq, Hash)]
pub enum Act {
    /// Nothing.
    Nothing,
    /// Read the rows after those known, and take their steps on the copy; but not past a row with the awaited id.
    Read,
    /// Take the request on the copy, and take it back: what is stored comes by reading.
    Try,
    /// Send the append that the phase names, the first time or again.
    Append,
    /// Take the request on the copy, for good, and give its answers.
    Tell,
    /// Give the refusals.
    Refuse,
    /// Say that the request was not taken, and never will be.
    Withdraw,
    /// Say that it is unknown whether the request was or will be taken.
    Unknown,
}

/// The phase that follows, and what is to be done.
#[derive(Clone, Copy, Debug, PartialEq, Eq, Hash)]
#[must_use = "the controller is in this phase now, and has this to do"]
pub struct Turn {
    /// The phase from now on.
    pub phase: Phase,
    /// What is to be done.
    pub act: Act,
}

impl Phase {
    fn numbers(self) -> (u64, u64) {
        match self {
            Phase::Idle => (0, 0),
            Phase::Asked => (1, 0),
            Phase::Current => (2, 0),
            Phase::Waiting { id } => (3, id),
            Phase::Halted => (4, 0),
        }
    }

    fn from_numbers(number: u64, id: u64) -> Option<Self> {
        match number {
            0 => Some(Phase::Idle),
            1 => Some(Phase::Asked),
            2 => Some(Phase::Current),
            3 => Some(Phase::Waiting { id }),
            4 => Some(Phase::Halted),
            _ => None,
        }
    }
}

impl Seen {
    fn numbers(self) -> (u64, u64, u64) {
        match self {
            Seen::Asked => (0, 0, 0),
            Seen::Read { known } => (1, known, 0),
            Seen::Next { known, id } => (2, known, id),
            Seen::Placed { known, place } => (3, known, place),
            Seen::Accepted { id } => (4, id, 0),
            Seen::Refused => (5, 0, 0),
            Seen::Silence => (6, 0, 0),
            Seen::Stop => (7, 0, 0),
            Seen::OtherHistory => (8, 0, 0),
        }
    }
}

impl Act {
    fn from_number(number: u64) -> Option<Self> {
        match number {
            0 => Some(Act::Nothing),
            1 => Some(Act::Read),
            2 => Some(Act::Try),
            3 => Some(Act::Append),
            4 => Some(Act::Tell),
            5 => Some(Act::Refuse),
            6 => Some(Act::Withdraw),
            7 => Some(Act::Unknown),
            _ => None,
        }
    }
}

/// What a controller in this phase does next, by what it has seen.
///
/// It fails only where the library is of another version.
pub fn decide(phase: Phase, seen: Seen) -> Result<Turn, Error> {
    let (phase, id) = phase.numbers();
    let (seen, first, second) = seen.numbers();
    // SAFETY: it takes numbers, any of them, and touches no memory; the answer is a struct of three numbers.
    let next = unsafe { raw::cindrolf_decide(phase, id, seen, first, second) };
    let phase = Phase::from_numbers(next.phase, next.id).ok_or(Error::UnknownAnswer(next.phase))?;
    let act = Act::from_number(next.act).ok_or(Error::UnknownAnswer(next.act))?;
    Ok(Turn { phase, act })
}

/// The id of a request: by the number that its controller drew from the engine when it started, and its count of
/// requests since, from 0. Two requests with other numbers have other ids, and none is 0.
pub fn request_id(start: NonZeroU32, count: u32) -> u64 {
    // SAFETY: it takes numbers, any of them, and touches no memory.
    unsafe { raw::cindrolf_request_id(start.get().into(), count.into()) }
}
