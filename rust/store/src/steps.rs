//! The steps of a store, each with its own answer.

use crate::request::Change;
use crate::{Error, Store};
use cindrolf::{Answer, CloseLast, Finish, Position, Progress, Step};

/// The answer of a kind of step, as that kind has it.
trait Own: Sized {
    fn of(answer: Answer) -> Option<Self>;
}

impl Own for () {
    fn of(answer: Answer) -> Option<Self> {
        (answer == Answer::Done).then_some(())
    }
}

impl Own for CloseLast {
    fn of(answer: Answer) -> Option<Self> {
        [CloseLast::Done, CloseLast::WasClosed, CloseLast::Behind].into_iter().find(|&own| answer == own.into())
    }
}

impl Own for Finish {
    fn of(answer: Answer) -> Option<Self> {
        [Finish::Done, Finish::Behind].into_iter().find(|&own| answer == own.into())
    }
}

impl Own for Progress {
    fn of(answer: Answer) -> Option<Self> {
        [Progress::Done, Progress::Behind].into_iter().find(|&own| answer == own.into())
    }
}

impl Own for Position {
    fn of(answer: Answer) -> Option<Self> {
        match answer {
            Answer::Stored(at) => Some(at),
            _ => None,
        }
    }
}

/// The library gives each kind of step its own answers.
pub(crate) fn no_answer() -> Error {
    Error::Damaged("a step was answered as no step of its kind is".into())
}

macro_rules! steps {
    ($($(#[$doc:meta])* $name:ident($($input:ident)?), $step:expr => $given:ty;)*) => {
        impl Store {
            $(
                $(#[$doc])*
                pub fn $name(&mut self, client: u64 $(, $input: u64)?) -> Result<$given, Error> {
                    let answer = self.one(&Change::Step(client, $step).into())?;
                    Own::of(answer).ok_or_else(no_answer)
                }
            )*
        }
    };
}

steps! {
    /// The client becomes the named leader.
    name(), Step::NAME => ();
    /// The client, which is named, starts to lead.
    become_leader(), Step::BECOME => ();
    /// The client, which is no longer named, stops leading.
    abdicate(), Step::ABDICATE => ();
    /// The client remembers the list's length and its last ledger.
    fetch(), Step::FETCH => ();
    /// The client fences the ledger that it fetched.
    close_last(), Step::CLOSE_LAST => CloseLast;
    /// The client closes the ledger that is fenced.
    finish(), Step::FINISH => Finish;
    /// The client creates a ledger.
    create_ledger(), Step::CREATE => ();
    /// The client appends its new ledger to the list.
    append(), Step::APPEND => Progress;
    /// The client adds an entry to its ledger.
    write(value), Step::write(value) => Position;
    /// The client closes its own ledger.
    close_own(), Step::CLOSE_OWN => Progress;
}
