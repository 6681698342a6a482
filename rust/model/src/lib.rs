//! A model of the chained run log, written from the scope of the log and the TLA+ specification LedgerChaining, not
//! from the library's code.
//!
//! It says everything twice. [`words`] has the operations on buffers of any length and content, with the checks in the
//! reference's order. [`source`] has histories of a fresh log in LedgerChaining's terms, where each client remembers
//! the whole list. The test in `tests/` compares the two on random [`histories`]. [`scores`] has the sum of a list of
//! quality scores, and [`lists`] has such lists. [`marks`] has the marks of a log, [`rights`] which client may take
//! which step, [`plans`] steps as words, run in a row, [`storage`] rearranges words, of a log or not, and [`sentences`]
//! has refusals in words.

pub mod histories;
pub mod layout;
pub mod lists;
pub mod marks;
pub mod plans;
pub mod random;
pub mod rights;
pub mod scores;
pub mod sentences;
pub mod source;
pub mod storage;
pub mod words;

/// What an operation answers. A refusal carries the reference's number.
#[derive(Clone, Copy, Debug, PartialEq, Eq)]
pub enum Answer {
    /// The step was taken.
    Done,
    /// The last ledger was closed already.
    WasClosed,
    /// Another client was faster.
    Behind,
    /// The write became an entry.
    Entry {
        /// Its number in the log, from 0.
        number: u64,
        /// Its place in its ledger, from 0.
        place: u64,
    },
    /// Nothing was done.
    Refused(u64),
}

/// One of the steps; the client that takes it stands beside it.
#[derive(Clone, Copy, Debug, PartialEq, Eq)]
pub enum Step {
    /// The client becomes the named leader.
    Name,
    /// The client starts to lead.
    Become,
    /// The client stops leading.
    Abdicate,
    /// The client fetches the list and the last ledger.
    Fetch,
    /// The client fences the last ledger.
    CloseLast,
    /// The client closes the ledger that is fenced.
    Finish,
    /// The client creates a ledger.
    Create,
    /// The client appends its ledger to the list.
    Append,
    /// The client writes this value.
    Write(u64),
    /// The client writes the sum of the parts of these scores.
    WriteScores(&'static [u16]),
    /// The client closes its own ledger.
    CloseOwn,
}

impl Step {
    /// The steps, the write with a value of 0 and that of scores with one score, of 0.
    pub const ALL: [Step; 11] = [
        Step::Name,
        Step::Become,
        Step::Abdicate,
        Step::Fetch,
        Step::CloseLast,
        Step::Finish,
        Step::Create,
        Step::Append,
        Step::Write(0),
        Step::WriteScores(&[0]),
        Step::CloseOwn,
    ];
}
