//! The chained run log for controllers in Rust: safe functions over the proved library.
//!
//! A log is two buffers of 64-bit words, [`STATE_WORDS`] of state and [`ENTRY_WORDS`] of entries. A [`Log`] owns them;
//! a [`LogMut`] or a [`LogRef`] borrows them; the functions of [`calls`] take plain slices. All of them accept buffers
//! of any length and content, and any number. A [`Refusal`] changes nothing. The entry buffer of a small cartridge has
//! [`SMALL_ENTRY_WORDS`]: a [`Capacity`] says which of the two.
//!
//! Persist both buffers together after every step that isn't refused. A [`View`] says what a log holds: the named
//! leader, the stage of each client, the list and its ledgers.
//!
//! Two controllers, of which the second takes over the lead:
//!
//! ```
//! use cindrolf::{CloseLast, EntryNumber, Error, Finish, LedgerPlace, Log, Position, Progress, Refusal};
//! use cindrolf::{client_of, value_of};
//!
//! let mut log = Log::fresh(3)?;
//! log.become_leader(0)?;
//! log.fetch(0)?;
//! log.create(0)?;
//! assert_eq!(log.append(0)?, Progress::Done);
//! assert_eq!(log.write(0, 7)?, Position { number: EntryNumber(0), place: LedgerPlace(0) });
//!
//! log.name(1)?;
//! log.become_leader(1)?;
//! log.fetch(1)?;
//! assert_eq!(log.close_last(1)?, CloseLast::Done);
//! // From now on the old leader is turned away.
//! assert_eq!(log.write(0, 8), Err(Error::Refused(Refusal::LedgerFenced)));
//! assert_eq!(log.finish(1)?, Finish::Done);
//! log.create(1)?;
//! assert_eq!(log.append(1)?, Progress::Done);
//! assert_eq!(log.write(1, 9)?, Position { number: EntryNumber(1), place: LedgerPlace(0) });
//! assert_eq!(log.close_own(0)?, Progress::Behind);
//!
//! let mut output = [0; cindrolf::ENTRY_WORDS];
//! let count = log.read_chain(&mut output)?;
//! let chain: Vec<_> = output[..count].iter().map(|&word| (client_of(word), value_of(word))).collect();
//! assert_eq!(chain, [(0, 7), (1, 9)]);
//! # Ok::<(), Error>(())
//! ```
//!
//! A controller with a read to store takes the advised steps, and persists the log after each:
//!
//! ```
//! use cindrolf::{Answer, EntryNumber, Error, Log, Position, Refusal, Step};
//!
//! /// Where the read is stored; none if another client is named.
//! fn store(log: &mut Log, client: u64, value: u64) -> Result<Option<Position>, Error> {
//!     while let Some(kind) = log.advise(client)? {
//!         // After a behind, the next advice says what to do.
//!         if let Answer::Stored(at) = log.take(client, Step::new(kind, value))? {
//!             return Ok(Some(at));
//!         }
//!     }
//!     Ok(None)
//! }
//!
//! let mut log = Log::fresh(2)?;
//! assert_eq!(store(&mut log, 0, 201)?.map(|at| at.number), Some(EntryNumber(0)));
//! log.name(1)?;
//! assert_eq!(store(&mut log, 1, 202)?.map(|at| at.number), Some(EntryNumber(1)));
//! assert_eq!(store(&mut log, 0, 203)?, None);
//! assert_eq!(store(&mut log, 1, 1 << 52), Err(Error::Refused(Refusal::ValueTooWide)));
//! # Ok::<(), Error>(())
//! ```
//!
//! An entry from quality scores, in quarters of a Phred unit: its value is the sum of their error probabilities, each in
//! whole parts of 10^-12.
//!
//! ```
//! use cindrolf::{EntryNumber, Error, Log, Refusal, value_of};
//!
//! let mut log = Log::fresh(1)?;
//! log.become_leader(0)?;
//! log.fetch(0)?;
//! log.create(0)?;
//! let _ = log.append(0)?;
//! assert_eq!(log.write_scores(0, &[40, 40, 372])?.number, EntryNumber(0));
//! assert_eq!(value_of(log.entries()[0]), 200_000_000_501);
//! assert_eq!(log.write_scores(0, &[40, 373]), Err(Error::Refused(Refusal::ScoreTooHigh)));
//! # Ok::<(), Error>(())
//! ```
//!
//! The sum of the run and of its ledgers, in parts of 10^-12: ledger after ledger along the list, then the whole, exact
//! and rounded once.
//!
//! ```
//! use cindrolf::{Error, LedgerNumber, LedgerSum, ListPlace, Log, Refusal, RunTotal};
//!
//! let mut log = Log::fresh(1)?;
//! log.become_leader(0)?;
//! log.fetch(0)?;
//! log.create(0)?;
//! let _ = log.append(0)?;
//! log.write(0, 1_400_000_000)?;
//! log.write(0, 100_000_000)?;
//!
//! assert_eq!(log.ledger_at(ListPlace(1))?, LedgerNumber(1));
//! assert_eq!(log.ledger_at(ListPlace(2)), Err(Error::Refused(Refusal::NotListed)));
//! assert_eq!(log.ledger_sum(LedgerNumber(1))?, LedgerSum { entries: 2, sum: 1_500_000_000 });
//! let total = log.run_total()?;
//! assert_eq!(total, RunTotal { ones: 0, parts: 1_500_000_000, rounded: 2 });
//! assert_eq!(total.to_string(), "0.001500000000");
//! # Ok::<(), Error>(())
//! ```
//!
//! A named point of a run, to return to: what was stored before the wash. Marks are kept in a third buffer, of
//! [`MARK_WORDS`] words, in which zeros keep none. Persist it with the log, or after it: a mark with more entries than
//! the log has is refused.
//!
//! ```
//! use cindrolf::{Error, Log, MarkName, Refusal};
//!
//! let mut log = Log::fresh(1)?;
//! log.become_leader(0)?;
//! log.fetch(0)?;
//! log.create(0)?;
//! let _ = log.append(0)?;
//! log.write(0, 7)?;
//! log.write(0, 8)?;
//!
//! let mut marks = [0; cindrolf::MARK_WORDS];
//! let before_the_wash: MarkName = "pre-wash".parse()?;
//! log.set_mark(&mut marks, before_the_wash)?;
//! log.write(0, 9)?;
//!
//! let mut output = [0; cindrolf::ENTRY_WORDS];
//! let count = log.read_mark(&marks, before_the_wash, &mut output)?;
//! assert_eq!(output[..count], [7, 8]);
//! assert_eq!(log.set_mark(&mut marks, before_the_wash), Err(Error::Refused(Refusal::MarkNameTaken)));
//!
//! // To move a mark, it is dropped and set again.
//! log.drop_mark(&mut marks, before_the_wash)?;
//! log.set_mark(&mut marks, before_the_wash)?;
//! assert_eq!(log.read_mark(&marks, before_the_wash, &mut output)?, 3);
//!
//! // A new log takes no marks of an old one. They are cleared by filling them with zeros.
//! let log = Log::fresh(1)?;
//! assert_eq!(log.drop_mark(&mut marks, before_the_wash), Err(Error::Refused(Refusal::NotWellFormed)));
//! marks.fill(0);
//! log.set_mark(&mut marks, before_the_wash)?;
//! # Ok::<(), Error>(())
//! ```
//!
//! On a small cartridge a log has 512 entry words, and takes 512 entries. Everything else is the same:
//!
//! ```
//! use cindrolf::{Capacity, Error, Log, Refusal};
//!
//! let mut log = Log::fresh_with(1, Capacity::Small)?;
//! log.become_leader(0)?;
//! log.fetch(0)?;
//! log.create(0)?;
//! let _ = log.append(0)?;
//! for value in 0..512 {
//!     log.write(0, value)?;
//! }
//! assert_eq!(log.write(0, 512), Err(Error::Refused(Refusal::LogFull)));
//!
//! // The words say which it is.
//! let log = Log::from_words(log.state(), log.entries())?;
//! assert_eq!(log.capacity(), Capacity::Small);
//! # Ok::<(), Error>(())
//! ```
//!
//! Steps may be taken under [`Rights`], which say for each client which steps it may take. The caller keeps them and
//! passes them with each step; without rights, each client may take every step.
//!
//! ```
//! use cindrolf::{Error, Log, Refusal, Right, Rights};
//!
//! let mut log = Log::fresh(2)?;
//! let mut rights = Rights::all(2)?;
//! rights.revoke(1, Right::Name);
//! assert_eq!(log.under(&rights).name(1), Err(Error::Refused(Refusal::MissingRight)));
//! assert_eq!(log.under(&rights).become_leader(0), Ok(()));
//! # Ok::<(), Error>(())
//! ```
//!
//! A planner sends a run as [`StepWord`]s. A [`Forecast`] says what the run would add, before any of it is taken.
//!
//! ```
//! use cindrolf::{Error, Forecast, Log, Rights, Step, StepWord};
//!
//! let mut log = Log::fresh(1)?;
//! let rights = Rights::all(1)?;
//! let lead = [Step::BECOME, Step::FETCH, Step::CREATE, Step::APPEND];
//! let steps = lead.into_iter().chain([Step::write(201), Step::write(202), Step::BECOME]);
//! let plan = steps.map(|step| StepWord::new(0, step)).collect::<Result<Vec<_>, _>>()?;
//!
//! // The last step, by a client that leads already, would be refused, and the budget ends before it.
//! assert_eq!(log.forecast(&rights, &plan, 7), Forecast { entries: 2, ledgers: 1, refusals: 1 });
//! assert_eq!(log.forecast(&rights, &plan, 6), Forecast { entries: 2, ledgers: 1, refusals: 0 });
//! assert_eq!(log.run_plan(&rights, &plan, 6), 6);
//! assert_eq!(log.view().entry_count(), 2);
//! # Ok::<(), Error>(())
//! ```
//!
//! The entries of a log for an archive disk: [`rearrange`] puts similar bytes together, so that a compressor finds them,
//! and [`restore`] gives back every word.
//!
//! ```
//! use cindrolf::{Error, Log, rearrange, restore};
//!
//! let log = Log::fresh(1)?;
//! let mut bytes = vec![0; 8 * log.entries().len()];
//! rearrange(log.entries(), &mut bytes)?;
//!
//! let mut entries = vec![0; bytes.len() / 8];
//! restore(&bytes, &mut entries)?;
//! assert_eq!(entries, log.entries());
//! # Ok::<(), Error>(())
//! ```
//!
//! A refusal as one sentence, for a screen, and read back from it:
//!
//! ```
//! use cindrolf::{Error, Kind, Log, Said, calls};
//!
//! let mut log = Log::fresh(8)?;
//! let refusal = log.write(7, 1).unwrap_err().refusal().expect("client 7 does not lead");
//! let sentence = refusal.sentence(Kind::Write, 7)?;
//! assert_eq!(sentence, "write of client 7: the client does not lead");
//! assert_eq!(calls::read_sentence(sentence.as_bytes())?, Some(Said { kind: Kind::Write, client: 7, refusal }));
//! # Ok::<(), Error>(())
//! ```

mod answer;
pub mod calls;
mod capacity;
mod error;
mod kind;
mod log;
mod mark;
mod plan;
#[doc(hidden)]
pub mod raw;
mod rights;
pub mod sharing;
mod step;
mod storage;
mod total;
mod version;
mod view;

pub use answer::{
    Advice, Answer, CloseLast, EntryNumber, Finish, LedgerNumber, LedgerPlace, Position, Progress, ReadingPlace,
};
pub use capacity::Capacity;
pub use error::{Error, Refusal, Said};
pub use kind::Kind;
#[doc(inline)]
pub use limits::{
    CLIENT_LIMIT, CLIENT_NUMBER_LIMIT, ENTRY_WORDS, LEDGER_LIMIT, MARK_WORDS, MARKS_LIMIT, REARRANGE_LIMIT,
    RIGHTS_WORDS, SCORE_LIMIT, SCORES_LIMIT, SMALL_ENTRY_WORDS, STATE_WORDS, TEXT_BYTES, VALUE_LIMIT, WINDOW_LIMIT,
};
pub use log::{Log, LogMut, LogRef, PermittedLog};
pub use mark::MarkName;
pub use plan::{Forecast, StepWord};
pub use rights::{Right, Rights};
pub use step::Step;
pub use storage::{rearrange, restore};
pub use total::{LedgerSum, RunTotal};
pub use version::{VERSION, check_version};
pub use view::{Client, Entry, Ledger, ListPlace, Remembered, Stage, View};

/// The ledger number in an entry's word. The words that read chain and a reading at a mark write have none.
pub const fn ledger_of(word: u64) -> Option<LedgerNumber> {
    match word >> 56 {
        0 => None,
        number => Some(LedgerNumber(number)),
    }
}

/// The client in an entry's word.
pub const fn client_of(word: u64) -> u64 {
    (word >> 52) & 15
}

/// The value in an entry's word.
pub const fn value_of(word: u64) -> u64 {
    word & VALUE_LIMIT
}
