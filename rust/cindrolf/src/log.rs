//! A log that owns its buffers, and logs that borrow them.

use crate::{
    Advice, Answer, Capacity, CloseLast, Error, Finish, Forecast, Kind, LedgerNumber, LedgerSum, ListPlace, MarkName,
    Position, Progress, ReadingPlace, Refusal, Rights, RunTotal, STATE_WORDS, Step, StepWord, View, calls,
    check_version,
};

/// A log that owns its two buffers.
///
/// It is well formed, since it begins fresh or is tested on the way in, and every step keeps it so.
///
/// ```
/// use cindrolf::Log;
///
/// let mut log = Log::fresh(1)?;
/// log.become_leader(0)?;
/// // Both buffers are persisted together, and read back later.
/// let (state, entries) = (log.state().to_vec(), log.entries().to_vec());
/// assert_eq!(Log::from_words(&state, &entries), Ok(log));
/// # Ok::<(), cindrolf::Error>(())
/// ```
///
/// You cannot overlook a `behind`. This compiles:
///
/// ```
/// #![deny(unused_must_use)]
/// use cindrolf::{Error, Log, Progress};
///
/// fn chain(log: &mut Log, client: u64) -> Result<bool, Error> {
///     log.create(client)?;
///     Ok(log.append(client)? == Progress::Done)
/// }
/// ```
///
/// This doesn't:
///
/// ```compile_fail
/// #![deny(unused_must_use)]
/// use cindrolf::{Error, Log, Progress};
///
/// fn chain(log: &mut Log, client: u64) -> Result<bool, Error> {
///     log.create(client)?;
///     log.append(client)?;
///     Ok(true)
/// }
/// ```
#[derive(Clone, Debug, PartialEq, Eq)]
pub struct Log {
    state: Box<[u64]>,
    entries: Box<[u64]>,
}

/// A log in buffers that are borrowed to be changed. They may have any length and content.
///
/// ```
/// use cindrolf::LogMut;
///
/// let (mut state, mut entries) = ([0; cindrolf::STATE_WORDS], [0; cindrolf::ENTRY_WORDS]);
/// let mut log = LogMut::new(&mut state, &mut entries);
/// log.fresh(2)?;
/// log.name(1)?;
/// assert!(log.well_formed());
/// # Ok::<(), cindrolf::Error>(())
/// ```
#[derive(Debug)]
pub struct LogMut<'a> {
    state: &'a mut [u64],
    entries: &'a mut [u64],
}

/// A log in buffers that are borrowed to be read. They may have any length and content.
///
/// ```
/// use cindrolf::{Error, LedgerNumber, LogRef, Refusal};
///
/// let empty = LogRef::new(&[], &[]);
/// assert!(!empty.well_formed());
/// assert_eq!(empty.read_ledger(LedgerNumber(1)), Err(Error::Refused(Refusal::WrongLength)));
/// ```
#[derive(Clone, Copy, Debug)]
pub struct LogRef<'a> {
    state: &'a [u64],
    entries: &'a [u64],
}

/// A log whose steps are taken under rights: each is refused where its client lacks the right to it.
///
/// [`Log::under`] and [`LogMut::under`] give one, for as long as the rights stay as they are.
///
/// ```
/// use cindrolf::{Error, Log, Refusal, Right, Rights};
///
/// let mut log = Log::fresh(2)?;
/// let mut rights = Rights::none();
/// rights.grant(1, Right::Name)?;
/// let mut permitted = log.under(&rights);
/// assert_eq!(permitted.name(1), Ok(()));
/// assert_eq!(permitted.become_leader(1), Err(Error::Refused(Refusal::MissingRight)));
/// # Ok::<(), Error>(())
/// ```
#[derive(Debug)]
pub struct PermittedLog<'a> {
    state: &'a mut [u64],
    entries: &'a mut [u64],
    rights: &'a Rights,
}

impl Log {
    /// An empty log for 1 to 16 clients, of which client 0 is the named leader, with room for 4,096 entries.
    pub fn fresh(client_count: u64) -> Result<Log, Error> {
        Log::fresh_with(client_count, Capacity::Large)
    }

    /// As [`fresh`](Log::fresh), with room for this many entries.
    pub fn fresh_with(client_count: u64, capacity: Capacity) -> Result<Log, Error> {
        check_version()?;
        let mut log = Log { state: vec![0; STATE_WORDS].into(), entries: vec![0; capacity.words()].into() };
        calls::fresh(&mut log.state, &mut log.entries, client_count)?;
        Ok(log)
    }

    /// A log that was persisted, of either capacity. It is refused where the words hold none.
    pub fn from_words(state: &[u64], entries: &[u64]) -> Result<Log, Error> {
        check_version()?;
        LogRef::new(state, entries).view()?;
        Ok(Log { state: state.into(), entries: entries.into() })
    }

    /// What the log holds.
    pub fn view(&self) -> View<'_> {
        View::new(&self.state, &self.entries)
    }

    /// How many entries the log takes.
    pub fn capacity(&self) -> Capacity {
        self.view().capacity()
    }

    /// The log, borrowed to be read.
    pub fn as_ref(&self) -> LogRef<'_> {
        LogRef::new(&self.state, &self.entries)
    }

    /// The log, borrowed to be changed.
    pub fn as_mut(&mut self) -> LogMut<'_> {
        LogMut::new(&mut self.state, &mut self.entries)
    }
}

impl<'a> LogMut<'a> {
    /// The log in these buffers.
    pub fn new(state: &'a mut [u64], entries: &'a mut [u64]) -> Self {
        LogMut { state, entries }
    }

    /// Makes the buffers an empty log for 1 to 16 clients, of which client 0 is the named leader.
    pub fn fresh(&mut self, client_count: u64) -> Result<(), Error> {
        calls::fresh(self.state, self.entries, client_count)
    }

    /// What the log holds. It is refused where the buffers hold none.
    pub fn view(&self) -> Result<View<'_>, Error> {
        self.as_ref().view()
    }

    /// The log, borrowed to be read.
    pub fn as_ref(&self) -> LogRef<'_> {
        LogRef::new(self.state, self.entries)
    }
}

impl<'a> LogRef<'a> {
    /// The log in these buffers.
    pub fn new(state: &'a [u64], entries: &'a [u64]) -> Self {
        LogRef { state, entries }
    }

    /// The state buffer.
    pub fn state(&self) -> &'a [u64] {
        self.state
    }

    /// The entry buffer.
    pub fn entries(&self) -> &'a [u64] {
        self.entries
    }

    /// Whether the buffers have the right lengths and hold a well-formed log.
    pub fn well_formed(&self) -> bool {
        calls::well_formed(self.state, self.entries)
    }

    /// What the log holds. It is refused where the buffers hold none.
    pub fn view(&self) -> Result<View<'a>, Error> {
        if self.state.len() != STATE_WORDS || Capacity::from_words(self.entries.len()).is_none() {
            return Err(Refusal::WrongLength.into());
        }
        if !self.well_formed() {
            return Err(Refusal::NotWellFormed.into());
        }
        Ok(View::new(self.state, self.entries))
    }

    /// What a run of this plan would add under these rights and this budget: exactly what
    /// [`run_plan`](LogMut::run_plan) with the same then adds.
    pub fn forecast(&self, rights: &Rights, plan: &[StepWord], budget: u64) -> Forecast {
        calls::forecast(self.state, self.entries, rights.words(), StepWord::words(plan), budget)
    }

    /// The step that a client should take next, if there is one.
    pub fn advise(&self, client: u64) -> Result<Option<Advice>, Error> {
        calls::advise(self.state, self.entries, client)
    }

    /// The entries of a listed ledger: the very part of the entry buffer, as stored words.
    pub fn read_ledger(&self, ledger: LedgerNumber) -> Result<&'a [u64], Error> {
        calls::read_ledger(self.state, self.entries, ledger)
    }

    /// Writes the entries of all listed ledgers to the front of the output, each without its ledger number, and answers
    /// how many they are. As many words as the entry buffer has are enough for every log that began fresh.
    pub fn read_chain(&self, output: &mut [u64]) -> Result<usize, Error> {
        calls::read_chain(self.state, self.entries, output)
    }

    /// The ledger at this place of the list. Places count from 1; one that the list doesn't have is refused as not listed.
    pub fn ledger_at(&self, place: ListPlace) -> Result<LedgerNumber, Error> {
        calls::ledger_at(self.state, self.entries, place)
    }

    /// How many entries a listed ledger has, and the sum of their values.
    pub fn ledger_sum(&self, ledger: LedgerNumber) -> Result<LedgerSum, Error> {
        calls::ledger_sum(self.state, self.entries, ledger)
    }

    /// The sum of the values of all listed ledgers, exact and rounded once.
    pub fn run_total(&self) -> Result<RunTotal, Error> {
        calls::run_total(self.state, self.entries)
    }

    /// Where the first window of the chain reading starts whose values come to more than the limit, or none. A window
    /// is `length` words of the reading in a row, 1 to [`WINDOW_LIMIT`](crate::WINDOW_LIMIT).
    ///
    /// ```
    /// use cindrolf::{Log, ReadingPlace};
    ///
    /// let mut log = Log::fresh(1)?;
    /// log.become_leader(0)?;
    /// log.fetch(0)?;
    /// log.create(0)?;
    /// let _ = log.append(0)?;
    /// for value in [1, 9, 2, 8] {
    ///     log.write(0, value)?;
    /// }
    /// assert_eq!(log.as_ref().first_window(2, 10)?, Some(ReadingPlace(1)));
    /// assert_eq!(log.as_ref().first_window(2, 11)?, None);
    /// # Ok::<(), cindrolf::Error>(())
    /// ```
    pub fn first_window(&self, length: u64, limit: u64) -> Result<Option<ReadingPlace>, Error> {
        calls::first_window(self.state, self.entries, length, limit)
    }

    /// Keeps a mark of this name at the log's entry count, after the marks that are kept. The marks buffer has
    /// [`MARK_WORDS`](crate::MARK_WORDS) words; of any other a refusal says so.
    pub fn set_mark(&self, marks: &mut [u64], name: MarkName) -> Result<(), Error> {
        calls::set_mark(self.state, self.entries, marks, name)
    }

    /// Drops the mark of this name. Those after it move up.
    pub fn drop_mark(&self, marks: &mut [u64], name: MarkName) -> Result<(), Error> {
        calls::drop_mark(self.state, self.entries, marks, name)
    }

    /// Writes the entries up to the mark of this name to the front of the output, each without its ledger number, and
    /// answers how many they are. At a mark that was set on this log since it began fresh, this is what
    /// [`read_chain`](Self::read_chain) gave then, whatever steps came after. As many words as the entry
    /// buffer has are enough.
    pub fn read_mark(&self, marks: &[u64], name: MarkName, output: &mut [u64]) -> Result<usize, Error> {
        calls::read_mark(self.state, self.entries, marks, name, output)
    }
}

// Any step, for a caller that has it as a value.
macro_rules! take {
    ($($log:ty),*) => {$(
        impl $log {
            /// Takes the step by its own function, and answers as that does.
            ///
            /// ```
            /// use cindrolf::{Answer, Error, Log, Refusal, Step};
            ///
            /// let mut log = Log::fresh(1)?;
            /// for step in [Step::BECOME, Step::FETCH, Step::CREATE, Step::APPEND] {
            ///     assert_eq!(log.take(0, step)?, Answer::Done);
            /// }
            /// assert_eq!(log.take(0, Step::write(7))?.to_string(), "entry 0 place 0");
            /// assert_eq!(log.take(0, Step::BECOME), Err(Error::Refused(Refusal::AlreadyLeads)));
            /// # Ok::<(), Error>(())
            /// ```
            pub fn take(&mut self, client: u64, step: Step) -> Result<Answer, Error> {
                match step.kind() {
                    Kind::Name => self.name(client).map(Answer::from),
                    Kind::Become => self.become_leader(client).map(Answer::from),
                    Kind::Abdicate => self.abdicate(client).map(Answer::from),
                    Kind::Fetch => self.fetch(client).map(Answer::from),
                    Kind::CloseLast => self.close_last(client).map(Answer::from),
                    Kind::Finish => self.finish(client).map(Answer::from),
                    Kind::Create => self.create(client).map(Answer::from),
                    Kind::Append => self.append(client).map(Answer::from),
                    Kind::Write => self.write(client, step.value()).map(Answer::from),
                    Kind::CloseOwn => self.close_own(client).map(Answer::from),
                }
            }
        }
    )*};
}

take!(Log, LogMut<'_>, PermittedLog<'_>);

// The steps under rights, each by its function in `calls` and what it takes beside its client.
macro_rules! permitted_steps {
    ($($name:ident, $call:ident($($input:ident: $kind:ty)?) => $given:ty;)*) => {
        impl PermittedLog<'_> {
            $(
                #[doc = concat!("As [`Log::", stringify!($name), "`], where the client has the right to it.")]
                pub fn $name(&mut self, client: u64 $(, $input: $kind)?) -> Result<$given, Error> {
                    calls::$call(self.state, self.entries, self.rights.words(), client $(, $input)?)
                }
            )*
        }
    };
}

permitted_steps! {
    name, name_with() => ();
    become_leader, become_leader_with() => ();
    abdicate, abdicate_with() => ();
    fetch, fetch_with() => ();
    close_last, close_last_with() => CloseLast;
    finish, finish_with() => Finish;
    create, create_with() => ();
    append, append_with() => Progress;
    write, write_with(value: u64) => Position;
    write_scores, write_scores_with(scores: &[u16]) => Position;
    close_own, close_own_with() => Progress;
}

macro_rules! operations {
    ($($log:ty),*) => {$(
        impl $log {
            /// The log with these rights, under which its steps are then taken. A step of the log itself asks for none.
            pub fn under<'a>(&'a mut self, rights: &'a Rights) -> PermittedLog<'a> {
                PermittedLog { state: &mut self.state, entries: &mut self.entries, rights }
            }

            /// The client becomes the named leader.
            pub fn name(&mut self, client: u64) -> Result<(), Error> {
                calls::name(&mut self.state, &mut self.entries, client)
            }

            /// The client, which is named, starts to lead. It fetches next.
            pub fn become_leader(&mut self, client: u64) -> Result<(), Error> {
                calls::become_leader(&mut self.state, &mut self.entries, client)
            }

            /// The client, which is no longer named, stops leading.
            pub fn abdicate(&mut self, client: u64) -> Result<(), Error> {
                calls::abdicate(&mut self.state, &mut self.entries, client)
            }

            /// The client remembers the list's length and its last ledger. It closes that next; with an empty list it
            /// creates one next.
            pub fn fetch(&mut self, client: u64) -> Result<(), Error> {
                calls::fetch(&mut self.state, &mut self.entries, client)
            }

            /// The client fences the ledger that it fetched, so that no client can write to it. It finishes it next,
            /// creates one if it was closed already, or fetches again after `behind`.
            pub fn close_last(&mut self, client: u64) -> Result<CloseLast, Error> {
                calls::close_last(&mut self.state, &mut self.entries, client)
            }

            /// The client closes the ledger that it, or another before it, has fenced. It creates one next, or fetches
            /// again after `behind`.
            pub fn finish(&mut self, client: u64) -> Result<Finish, Error> {
                calls::finish(&mut self.state, &mut self.entries, client)
            }

            /// The client creates a ledger. It appends it next.
            pub fn create(&mut self, client: u64) -> Result<(), Error> {
                calls::create(&mut self.state, &mut self.entries, client)
            }

            /// The client appends its new ledger to the list, and may write. After `behind` it no longer leads.
            pub fn append(&mut self, client: u64) -> Result<Progress, Error> {
                calls::append(&mut self.state, &mut self.entries, client)
            }

            /// The client adds an entry to its ledger. The answer is the entry's number and its place in that ledger.
            pub fn write(&mut self, client: u64, value: u64) -> Result<Position, Error> {
                calls::write(&mut self.state, &mut self.entries, client, value)
            }

            /// The client adds an entry to its ledger whose value is the sum of the parts of these scores, and gets the
            /// answer of [`write`](Self::write). Pass 1 to [`SCORES_LIMIT`](crate::SCORES_LIMIT) scores, none above
            /// [`SCORE_LIMIT`](crate::SCORE_LIMIT); any others are refused.
            pub fn write_scores(&mut self, client: u64, scores: &[u16]) -> Result<Position, Error> {
                calls::write_scores(&mut self.state, &mut self.entries, client, scores)
            }

            /// The client closes its own ledger, which may be empty, without a fence. It creates one next. After
            /// `behind` it no longer leads.
            pub fn close_own(&mut self, client: u64) -> Result<Progress, Error> {
                calls::close_own(&mut self.state, &mut self.entries, client)
            }

            /// Takes the steps of a plan one after the other under these rights, up to the budget, and returns how many it
            /// took: the smaller of the budget and the plan's length. A refused step counts, and the next one is taken.
            /// Both buffers end as after the same steps taken one by one [`under`](Self::under) these rights.
            pub fn run_plan(&mut self, rights: &Rights, plan: &[StepWord], budget: u64) -> u64 {
                calls::run_plan(&mut self.state, &mut self.entries, rights.words(), StepWord::words(plan), budget)
            }

            /// What a run of this plan would add under these rights and this budget: exactly what
            /// [`run_plan`](Self::run_plan) with the same then adds.
            pub fn forecast(&self, rights: &Rights, plan: &[StepWord], budget: u64) -> Forecast {
                self.as_ref().forecast(rights, plan, budget)
            }

            /// The state buffer, to persist.
            pub fn state(&self) -> &[u64] {
                &self.state
            }

            /// The entry buffer, to persist.
            pub fn entries(&self) -> &[u64] {
                &self.entries
            }

            /// Whether the buffers have the right lengths and hold a well-formed log.
            pub fn well_formed(&self) -> bool {
                self.as_ref().well_formed()
            }

            /// The step that a client should take next, if there is one. A named leader that takes these steps and lacks
            /// no right, while no other client does anything, has a write accepted at the tenth or earlier.
            pub fn advise(&self, client: u64) -> Result<Option<Advice>, Error> {
                self.as_ref().advise(client)
            }

            /// The entries of a listed ledger: the very part of the entry buffer, as stored words.
            pub fn read_ledger(&self, ledger: LedgerNumber) -> Result<&[u64], Error> {
                self.as_ref().read_ledger(ledger)
            }

            /// Writes the entries of all listed ledgers to the front of the output, each without its ledger number,
            /// and answers how many they are.
            pub fn read_chain(&self, output: &mut [u64]) -> Result<usize, Error> {
                self.as_ref().read_chain(output)
            }

            /// The ledger at this place of the list. Places count from 1; one that the list doesn't have is refused as
            /// not listed.
            pub fn ledger_at(&self, place: ListPlace) -> Result<LedgerNumber, Error> {
                self.as_ref().ledger_at(place)
            }

            /// How many entries a listed ledger has, and the sum of their values.
            pub fn ledger_sum(&self, ledger: LedgerNumber) -> Result<LedgerSum, Error> {
                self.as_ref().ledger_sum(ledger)
            }

            /// The sum of the values of all listed ledgers, exact and rounded once.
            pub fn run_total(&self) -> Result<RunTotal, Error> {
                self.as_ref().run_total()
            }

            /// Where the first window of the chain reading starts whose values come to more than the limit, or none. A
            /// window is `length` words of the reading in a row, 1 to [`WINDOW_LIMIT`](crate::WINDOW_LIMIT).
            pub fn first_window(&self, length: u64, limit: u64) -> Result<Option<ReadingPlace>, Error> {
                self.as_ref().first_window(length, limit)
            }

            /// Keeps a mark of this name at the log's entry count, after the marks that are kept. The marks buffer has
            /// [`MARK_WORDS`](crate::MARK_WORDS) words; of any other a refusal says so.
            pub fn set_mark(&self, marks: &mut [u64], name: MarkName) -> Result<(), Error> {
                self.as_ref().set_mark(marks, name)
            }

            /// Drops the mark of this name. Those after it move up.
            pub fn drop_mark(&self, marks: &mut [u64], name: MarkName) -> Result<(), Error> {
                self.as_ref().drop_mark(marks, name)
            }

            /// Writes the entries up to the mark of this name to the front of the output, each without its ledger
            /// number, and answers how many they are.
            pub fn read_mark(&self, marks: &[u64], name: MarkName, output: &mut [u64]) -> Result<usize, Error> {
                self.as_ref().read_mark(marks, name, output)
            }
        }
    )*};
}

operations!(Log, LogMut<'_>);
