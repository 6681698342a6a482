//! Every operation as a function over plain slices, which may have any length and content.
//!
//! ```
//! use cindrolf::{Error, Refusal, calls};
//!
//! let (mut state, mut entries) = (vec![0; 527], vec![0; 4096]);
//! assert_eq!(calls::name(&mut state, &mut entries, 1), Err(Error::Refused(Refusal::NotWellFormed)));
//! calls::fresh(&mut state, &mut entries, 2)?;
//! calls::name(&mut state, &mut entries, 1)?;
//! assert_eq!(calls::name(&mut state[..526], &mut entries, 0), Err(Error::Refused(Refusal::WrongLength)));
//! # Ok::<(), Error>(())
//! ```
//!
//! A step whose name ends in `_with` also takes the rights of the clients, words of any length and content, and is
//! refused if its client lacks the right to it. The other steps check none.
//!
//! ```
//! use cindrolf::{Error, Refusal, Right, Rights, calls};
//!
//! let (mut state, mut entries) = (vec![0; 527], vec![0; 4096]);
//! calls::fresh(&mut state, &mut entries, 2)?;
//! let mut rights = Rights::all(2)?;
//! rights.revoke(1, Right::Name);
//! let words = rights.words();
//! assert_eq!(calls::name_with(&mut state, &mut entries, words, 1), Err(Error::Refused(Refusal::MissingRight)));
//! assert_eq!(calls::name_with(&mut state, &mut entries, &words[1..], 1), Err(Error::Refused(Refusal::WrongLength)));
//! # Ok::<(), Error>(())
//! ```
//!
//! A plan is step words, of any length and content. A run itself refuses nothing, so it has no error.
//!
//! ```
//! use cindrolf::{Error, Forecast, Rights, calls};
//!
//! let (mut state, mut entries) = (vec![0; 527], vec![0; 4096]);
//! calls::fresh(&mut state, &mut entries, 1)?;
//! let (rights, plan) = (Rights::all(1)?, [1 << 60, 3 << 60, 6 << 60, 7 << 60, (8 << 60) + 201]);
//! let forecast = calls::forecast(&state, &entries, rights.words(), &plan, u64::MAX);
//! assert_eq!(forecast, Forecast { entries: 1, ledgers: 1, refusals: 0 });
//! assert_eq!(calls::run_plan(&mut state, &mut entries, rights.words(), &plan, u64::MAX), 5);
//! assert_eq!(entries[0], (1 << 56) + 201);
//! // Buffers that hold no log: each step is refused, and counts.
//! assert_eq!(calls::run_plan(&mut [], &mut [], rights.words(), &plan, 3), 3);
//! # Ok::<(), Error>(())
//! ```
//!
//! The unsafe blocks below are sound for one reason. The library reads and writes only the words, bytes and scores that
//! we pass by pointer and length, keeps no pointer, and accepts every content. The slices give it pointers that are
//! aligned, not null and valid for their lengths. Nothing else has access to a `&mut` slice during the call, so what
//! the library changes overlaps nothing. Each block's comment adds what is special to it.

pub use crate::storage::{rearrange, restore};
use crate::{
    Advice, CloseLast, Error, Finish, Forecast, Kind, LedgerNumber, LedgerSum, ListPlace, MarkName, Position, Progress,
    ReadingPlace, Refusal, RunTotal, Said, answer, raw,
};

/// Makes the buffers an empty log for 1 to 16 clients, of which client 0 is the named leader.
pub fn fresh(state: &mut [u64], entries: &mut [u64], client_count: u64) -> Result<(), Error> {
    // SAFETY: both slices are exclusive, and the count is any number.
    let number = unsafe {
        raw::cindrolf_fresh(state.as_mut_ptr(), state.len(), entries.as_mut_ptr(), entries.len(), client_count)
    };
    answer::done(number)
}

// A step, without rights and with them, by the numbers that it takes and the answers that it can give.
macro_rules! step {
    (
        $(#[$doc:meta])* $name:ident($($number:ident),*), $raw:ident; $with:ident, $raw_with:ident;
        $answer:path => $given:ty
    ) => {
        $(#[$doc])*
        pub fn $name(state: &mut [u64], entries: &mut [u64], $($number: u64),*) -> Result<$given, Error> {
            // SAFETY: both slices are exclusive, and each number is any number.
            let number = unsafe {
                raw::$raw(state.as_mut_ptr(), state.len(), entries.as_mut_ptr(), entries.len(), $($number),*)
            };
            $answer(number)
        }

        #[doc = concat!("As [`", stringify!($name), "`](", stringify!($name), "()), under these rights.")]
        pub fn $with(
            state: &mut [u64],
            entries: &mut [u64],
            rights: &[u64],
            $($number: u64),*
        ) -> Result<$given, Error> {
            // SAFETY: the state and the entries are exclusive, the rights are only read, and each number is any number.
            let number = unsafe {
                raw::$raw_with(
                    state.as_mut_ptr(),
                    state.len(),
                    entries.as_mut_ptr(),
                    entries.len(),
                    rights.as_ptr(),
                    rights.len(),
                    $($number),*
                )
            };
            $answer(number)
        }
    };
}

step! {
    /// The client becomes the named leader.
    name(client), cindrolf_name; name_with, cindrolf_name_with; answer::done => ()
}

step! {
    /// The client, which is named, starts to lead.
    become_leader(client), cindrolf_become; become_leader_with, cindrolf_become_with; answer::done => ()
}

step! {
    /// The client, which is no longer named, stops leading.
    abdicate(client), cindrolf_abdicate; abdicate_with, cindrolf_abdicate_with; answer::done => ()
}

step! {
    /// The client remembers the list's length and its last ledger.
    fetch(client), cindrolf_fetch; fetch_with, cindrolf_fetch_with; answer::done => ()
}

step! {
    /// The client fences the ledger that it fetched.
    close_last(client), cindrolf_close_last; close_last_with, cindrolf_close_last_with; answer::close_last => CloseLast
}

step! {
    /// The client closes the ledger that is fenced.
    finish(client), cindrolf_finish; finish_with, cindrolf_finish_with; answer::finish => Finish
}

step! {
    /// The client creates a ledger.
    create(client), cindrolf_create; create_with, cindrolf_create_with; answer::done => ()
}

step! {
    /// The client appends its new ledger to the list.
    append(client), cindrolf_append; append_with, cindrolf_append_with; answer::progress => Progress
}

step! {
    /// The client adds an entry to its ledger, and is answered the entry's number and its place in that ledger.
    write(client, value), cindrolf_write; write_with, cindrolf_write_with; answer::entry => Position
}

step! {
    /// The client closes its own ledger, which may be empty.
    close_own(client), cindrolf_close_own; close_own_with, cindrolf_close_own_with; answer::progress => Progress
}

/// The client adds an entry to its ledger whose value is the sum of the parts of these scores, and is answered as by
/// [`write`](write()). The scores may be any numbers, and any number of them.
pub fn write_scores(state: &mut [u64], entries: &mut [u64], client: u64, scores: &[u16]) -> Result<Position, Error> {
    // SAFETY: the state and the entries are exclusive, the scores are only read, and the client is any number.
    let number = unsafe {
        raw::cindrolf_write_scores(
            state.as_mut_ptr(),
            state.len(),
            entries.as_mut_ptr(),
            entries.len(),
            client,
            scores.as_ptr(),
            scores.len(),
        )
    };
    answer::entry(number)
}

/// As [`write_scores`], under these rights.
pub fn write_scores_with(
    state: &mut [u64],
    entries: &mut [u64],
    rights: &[u64],
    client: u64,
    scores: &[u16],
) -> Result<Position, Error> {
    // SAFETY: the state and the entries are exclusive, the rights and the scores are only read, and the client is any
    // number.
    let number = unsafe {
        raw::cindrolf_write_scores_with(
            state.as_mut_ptr(),
            state.len(),
            entries.as_mut_ptr(),
            entries.len(),
            rights.as_ptr(),
            rights.len(),
            client,
            scores.as_ptr(),
            scores.len(),
        )
    };
    answer::entry(number)
}

/// Takes the steps of a plan one after the other under these rights, up to the budget, and answers how many it took:
/// the smaller of the budget and the plan's length. A refused step counts.
pub fn run_plan(state: &mut [u64], entries: &mut [u64], rights: &[u64], plan: &[u64], budget: u64) -> u64 {
    // SAFETY: the state and the entries are exclusive, the rights and the plan are only read, and the budget is any
    // number.
    unsafe {
        raw::cindrolf_run_plan(
            state.as_mut_ptr(),
            state.len(),
            entries.as_mut_ptr(),
            entries.len(),
            rights.as_ptr(),
            rights.len(),
            plan.as_ptr(),
            plan.len(),
            budget,
        )
    }
}

/// What [`run_plan`] would add, called with the same buffers, rights, plan and budget.
pub fn forecast(state: &[u64], entries: &[u64], rights: &[u64], plan: &[u64], budget: u64) -> Forecast {
    // SAFETY: nothing is changed, and the budget is any number; the answer is a struct of three numbers.
    let raw::PlanCounts { entries, ledgers, refusals } = unsafe {
        raw::cindrolf_forecast(
            state.as_ptr(),
            state.len(),
            entries.as_ptr(),
            entries.len(),
            rights.as_ptr(),
            rights.len(),
            plan.as_ptr(),
            plan.len(),
            budget,
        )
    };
    Forecast { entries, ledgers, refusals }
}

/// Whether the buffers have the right lengths and hold a well-formed log.
pub fn well_formed(state: &[u64], entries: &[u64]) -> bool {
    // SAFETY: nothing is changed. The library answers a C bool, 0 or 1.
    unsafe { raw::cindrolf_well_formed(state.as_ptr(), state.len(), entries.as_ptr(), entries.len()) }
}

/// The step that a client should take next, if there is one.
pub fn advise(state: &[u64], entries: &[u64], client: u64) -> Result<Option<Advice>, Error> {
    // SAFETY: nothing is changed, and the client is any number.
    let number = unsafe { raw::cindrolf_advise(state.as_ptr(), state.len(), entries.as_ptr(), entries.len(), client) };
    answer::advice(number)
}

/// The part of the entry buffer with the entries of a listed ledger, as stored words.
pub fn read_ledger<'a>(state: &[u64], entries: &'a [u64], ledger: LedgerNumber) -> Result<&'a [u64], Error> {
    // SAFETY: nothing is changed; the answer is a struct of three numbers.
    let part =
        unsafe { raw::cindrolf_read_ledger(state.as_ptr(), state.len(), entries.as_ptr(), entries.len(), ledger.0) };
    answer::done(part.answer)?;
    let start = part.start as usize;
    let words = start.checked_add(part.count as usize).and_then(|end| entries.get(start..end));
    words.ok_or(Error::UnknownAnswer(part.start))
}

/// Writes the entries of all listed ledgers to the front of the output buffer, each without its ledger number, and
/// answers how many they are. The words after them stay.
pub fn read_chain(state: &[u64], entries: &[u64], output: &mut [u64]) -> Result<usize, Error> {
    // SAFETY: the output alone is changed, and it is exclusive; the answer is a struct of two numbers.
    let read = unsafe {
        raw::cindrolf_read_chain(
            state.as_ptr(),
            state.len(),
            entries.as_ptr(),
            entries.len(),
            output.as_mut_ptr(),
            output.len(),
        )
    };
    words_read(read, output.len())
}

/// How many words a reading wrote to an output of this length.
fn words_read(read: raw::ChainCount, room: usize) -> Result<usize, Error> {
    answer::done(read.answer)?;
    let count = read.count as usize;
    if count <= room { Ok(count) } else { Err(Error::UnknownAnswer(read.count)) }
}

/// The ledger at this place of the list. Places count from 1; one that the list doesn't have is refused as not listed.
pub fn ledger_at(state: &[u64], entries: &[u64], place: ListPlace) -> Result<LedgerNumber, Error> {
    // SAFETY: nothing is changed, and the place is any number; the answer is a struct of two numbers.
    let listed =
        unsafe { raw::cindrolf_ledger_at(state.as_ptr(), state.len(), entries.as_ptr(), entries.len(), place.0) };
    answer::done(listed.answer)?;
    Ok(LedgerNumber(listed.ledger))
}

/// How many entries a listed ledger has, and the sum of their values.
pub fn ledger_sum(state: &[u64], entries: &[u64], ledger: LedgerNumber) -> Result<LedgerSum, Error> {
    // SAFETY: nothing is changed, and the ledger is any number; the answer is a struct of three numbers.
    let raw::SummedLedger { answer, entries, sum } =
        unsafe { raw::cindrolf_ledger_sum(state.as_ptr(), state.len(), entries.as_ptr(), entries.len(), ledger.0) };
    answer::done(answer)?;
    Ok(LedgerSum { entries, sum })
}

/// The sum of the values of all listed ledgers, exact and rounded once.
pub fn run_total(state: &[u64], entries: &[u64]) -> Result<RunTotal, Error> {
    // SAFETY: nothing is changed; the answer is a struct of four numbers.
    let raw::SummedRun { answer, ones, parts, rounded } =
        unsafe { raw::cindrolf_run_total(state.as_ptr(), state.len(), entries.as_ptr(), entries.len()) };
    answer::done(answer)?;
    Ok(RunTotal { ones, parts, rounded })
}

/// The start of the first window of the chain reading whose values come to more than the limit, or none. A window is
/// `length` words of the reading in a row.
pub fn first_window(state: &[u64], entries: &[u64], length: u64, limit: u64) -> Result<Option<ReadingPlace>, Error> {
    // SAFETY: nothing is changed, and both numbers are any numbers; the answer is a struct of three numbers.
    let window = unsafe {
        raw::cindrolf_first_window(state.as_ptr(), state.len(), entries.as_ptr(), entries.len(), length, limit)
    };
    answer::done(window.answer)?;
    match window.found {
        0 => Ok(None),
        1 => Ok(Some(ReadingPlace(window.start))),
        found => Err(Error::UnknownAnswer(found)),
    }
}

// A call that changes the marks, and only reads the log.
macro_rules! on_marks {
    ($(#[$doc:meta])* $name:ident, $raw:ident) => {
        $(#[$doc])*
        pub fn $name(state: &[u64], entries: &[u64], marks: &mut [u64], name: MarkName) -> Result<(), Error> {
            // SAFETY: the marks alone are changed, and they are exclusive; the name is any number.
            let number = unsafe {
                raw::$raw(
                    state.as_ptr(),
                    state.len(),
                    entries.as_ptr(),
                    entries.len(),
                    marks.as_mut_ptr(),
                    marks.len(),
                    name.word(),
                )
            };
            answer::done(number)
        }
    };
}

on_marks! {
    /// Keeps a mark of this name at the log's entry count, after the marks that are kept.
    set_mark, cindrolf_mark_set
}

on_marks! {
    /// Drops the mark of this name. Those after it move up.
    drop_mark, cindrolf_mark_drop
}

/// Writes the entries up to the mark of this name to the front of the output buffer, each without its ledger number,
/// and answers how many they are. The words after them stay.
pub fn read_mark(
    state: &[u64],
    entries: &[u64],
    marks: &[u64],
    name: MarkName,
    output: &mut [u64],
) -> Result<usize, Error> {
    // SAFETY: the output alone is changed, and it is exclusive; the answer is a struct of two numbers.
    let read = unsafe {
        raw::cindrolf_mark_read(
            state.as_ptr(),
            state.len(),
            entries.as_ptr(),
            entries.len(),
            marks.as_ptr(),
            marks.len(),
            name.word(),
            output.as_mut_ptr(),
            output.len(),
        )
    };
    words_read(read, output.len())
}

/// Writes the sentence of a refusal to the front of the text, and answers how many bytes it has. The bytes after it
/// stay. The step is given by the number of its [`Kind`], 0 to 9; another number is refused. The text has
/// [`TEXT_BYTES`](crate::TEXT_BYTES) bytes or more.
pub fn sentence(step: u64, client: u64, refusal: u64, text: &mut [u8]) -> Result<usize, Error> {
    // SAFETY: the text alone is changed, and it is exclusive; the answer is a struct of two numbers.
    let said = unsafe { raw::cindrolf_sentence(step, client, refusal, text.as_mut_ptr(), text.len()) };
    answer::done(said.answer)?;
    let length = said.length as usize;
    if length <= text.len() { Ok(length) } else { Err(Error::UnknownAnswer(said.length)) }
}

/// What a text says that is exactly a sentence; none where it is another text. The text has any bytes, and any number
/// of them.
///
/// ```
/// use cindrolf::{Error, Kind, Refusal, Said, calls};
///
/// let said = calls::read_sentence(b"write of client 7: the log is full")?;
/// assert_eq!(said, Some(Said { kind: Kind::Write, client: 7, refusal: Refusal::LogFull }));
/// assert_eq!(calls::read_sentence(b"write of client 07: the log is full")?, None);
/// # Ok::<(), Error>(())
/// ```
pub fn read_sentence(text: &[u8]) -> Result<Option<Said>, Error> {
    // SAFETY: nothing is changed; the answer is a struct of four numbers.
    let said = unsafe { raw::cindrolf_read_sentence(text.as_ptr(), text.len()) };
    match said.found {
        0 => Ok(None),
        1 => {
            let refusal = Refusal::from_number(said.refusal).ok_or(Error::UnknownAnswer(said.refusal))?;
            let kind = Kind::from_number(said.step).ok_or(Error::UnknownAnswer(said.step))?;
            Ok(Some(Said { kind, client: said.client, refusal }))
        }
        found => Err(Error::UnknownAnswer(found)),
    }
}
