//! One call of an operation, as the library and the model take it.

use model::plans::{self, Counts};
use model::{Answer, Step, marks, words};
use std::fmt;
use std::hint::black_box;
use std::ops::Range;

/// The buffers of a call.
#[derive(Clone, Debug, Default, PartialEq, Eq)]
pub struct Buffers {
    /// The state buffer.
    pub state: Vec<u64>,
    /// The entry buffer.
    pub entries: Vec<u64>,
    /// The marks buffer.
    pub marks: Vec<u64>,
    /// The rights of a step under rights, or of a run.
    pub rights: Vec<u64>,
    /// The plan of a run.
    pub plan: Vec<u64>,
    /// The output buffer of read chain and of reading at a mark.
    pub output: Vec<u64>,
}

impl Buffers {
    /// The buffers as a call is lent them.
    pub fn lend(&mut self) -> Lent<'_> {
        let Buffers { state, entries, marks, rights, plan, output } = self;
        Lent { state, entries, marks, rights, plan, output }
    }
}

/// The buffers as a call is lent them.
#[derive(Debug, PartialEq, Eq)]
pub struct Lent<'a> {
    /// The state buffer.
    pub state: &'a mut [u64],
    /// The entry buffer.
    pub entries: &'a mut [u64],
    /// The marks buffer.
    pub marks: &'a mut [u64],
    /// The rights of a step under rights, or of a run.
    pub rights: &'a mut [u64],
    /// The plan of a run.
    pub plan: &'a mut [u64],
    /// The output buffer of read chain and of reading at a mark.
    pub output: &'a mut [u64],
}

/// An operation with its arguments.
#[derive(Clone, Copy, Debug, PartialEq, Eq)]
pub enum Call {
    /// Fresh, with a client count.
    Fresh(u64),
    /// A step by a client, without rights.
    Step(u64, Step),
    /// A step by a client, under the rights that are lent.
    StepWith(u64, Step),
    /// A step by its number, with a client and a value, without rights.
    Take(u64, u64, u64),
    /// The same under the rights that are lent.
    TakeWith(u64, u64, u64),
    /// A run of the plan under the rights that are lent, with its budget.
    RunPlan(u64),
    /// What such a run would add.
    Forecast(u64),
    /// The check of both buffers.
    WellFormed,
    /// The adviser, with a client.
    Advise(u64),
    /// Read ledger, with a ledger number.
    ReadLedger(u64),
    /// Read chain.
    ReadChain,
    /// The ledger at a list place, with the place.
    LedgerAt(u64),
    /// The sum of a ledger, with its number.
    LedgerSum(u64),
    /// The run total.
    RunTotal,
    /// The search for a window, with its length and the limit.
    FirstWindow(u64, u64),
    /// Setting a mark, with its name.
    SetMark(u64),
    /// Dropping a mark, with its name.
    DropMark(u64),
    /// Reading at a mark, with its name.
    ReadMark(u64),
}

/// As a report has it: a long list of scores by its ends and its length.
impl fmt::Display for Call {
    fn fmt(&self, f: &mut fmt::Formatter<'_>) -> fmt::Result {
        match self {
            Call::Step(client, Step::WriteScores(scores @ [a, b, .., y, z]))
            | Call::StepWith(client, Step::WriteScores(scores @ [a, b, .., y, z]))
                if scores.len() > 8 =>
            {
                let name = if matches!(self, Call::Step(..)) { "Step" } else { "StepWith" };
                write!(f, "{name}({client}, WriteScores([{a}, {b}, .. {y}, {z}]), {} scores)", scores.len())
            }
            call => write!(f, "{call:?}"),
        }
    }
}

/// What a call gave back.
#[derive(Clone, Debug, PartialEq, Eq)]
pub enum Outcome {
    /// The answer of fresh or a step, of setting or dropping a mark, or a refusal of the adviser.
    Answer(Answer),
    /// The check's verdict.
    WellFormed(bool),
    /// The step that is advised, a write with a value of 0, if there is one.
    Advice(Option<Step>),
    /// Read ledger's answer, and its part of the entry buffer: 0 and 0 wherever it is empty.
    Part {
        /// Done or a refusal.
        answer: Answer,
        /// The index of its first word.
        start: u64,
        /// How many words it has.
        count: u64,
    },
    /// The answer of read chain or of reading at a mark, and its count, 0 on a refusal.
    Count {
        /// Done or a refusal.
        answer: Answer,
        /// How many words it wrote.
        count: u64,
    },
    /// The answer of a list place, and the ledger there, 0 on a refusal.
    Listed {
        /// Done or a refusal.
        answer: Answer,
        /// Its number.
        ledger: u64,
    },
    /// The answer of a ledger's sum, its entries and the sum of their values, both 0 on a refusal.
    Sum {
        /// Done or a refusal.
        answer: Answer,
        /// How many entries it has.
        entries: u64,
        /// What their values come to.
        sum: u64,
    },
    /// The answer of the run total, and its three numbers, all 0 on a refusal.
    Total {
        /// Done or a refusal.
        answer: Answer,
        /// Whole units of 10^12 parts.
        ones: u64,
        /// The parts beside them.
        parts: u64,
        /// The whole in thousandths of a unit.
        rounded: u64,
    },
    /// The answer of the search for a window, whether it found one, and its start: 0 and 0 where it found none.
    Window {
        /// Done or a refusal.
        answer: Answer,
        /// 0 or 1.
        found: u64,
        /// Where it starts.
        start: u64,
    },
    /// How many steps a run took.
    Taken(u64),
    /// What a run would add.
    Forecast(Counts),
    /// The crate for controllers doesn't hand on what the function below it gave.
    NotHandedOn(Box<Outcome>),
}

impl Outcome {
    /// The answer, where it is one.
    pub fn answer(&self) -> Option<Answer> {
        match self {
            Outcome::Answer(answer)
            | Outcome::Part { answer, .. }
            | Outcome::Count { answer, .. }
            | Outcome::Listed { answer, .. }
            | Outcome::Sum { answer, .. }
            | Outcome::Total { answer, .. }
            | Outcome::Window { answer, .. } => Some(*answer),
            Outcome::WellFormed(_)
            | Outcome::Advice(_)
            | Outcome::Taken(_)
            | Outcome::Forecast(_)
            | Outcome::NotHandedOn(_) => None,
        }
    }

    /// Whether the call may have changed a buffer.
    pub fn changes(&self) -> bool {
        use Outcome::{Advice, Forecast, Listed, Part, Sum, Total, WellFormed, Window};
        let reads = matches!(self, WellFormed(_) | Advice(_) | Part { .. } | Window { .. } | Forecast(_))
            || matches!(self, Listed { .. } | Sum { .. } | Total { .. });
        !reads && !matches!(self.answer(), Some(Answer::Refused(_)))
    }
}

/// What is compared with the model: it takes a call and changes the buffers.
pub type Subject = fn(Call, &mut Lent) -> Outcome;

/// The model's side.
pub fn model(call: Call, lent: &mut Lent) -> Outcome {
    let Lent { state, entries, marks, rights, plan, output } = lent;
    match call {
        Call::Fresh(count) => Outcome::Answer(words::fresh(state, entries, count)),
        Call::Step(client, step) => Outcome::Answer(words::step(state, entries, client, step)),
        Call::StepWith(client, step) => Outcome::Answer(words::step_with(state, entries, rights, client, step)),
        Call::Take(number, client, value) => {
            model_take(number, value, |step| words::step(state, entries, client, step))
        }
        Call::TakeWith(number, client, value) => {
            model_take(number, value, |step| words::step_with(state, entries, rights, client, step))
        }
        Call::RunPlan(budget) => Outcome::Taken(plans::run(state, entries, rights, plan, budget)),
        Call::Forecast(budget) => Outcome::Forecast(plans::forecast(state, entries, rights, plan, budget)),
        Call::WellFormed => Outcome::WellFormed(words::well_formed(state, entries)),
        Call::Advise(client) => words::advise(state, entries, client)
            .map_or_else(|number| Outcome::Answer(Answer::Refused(number)), Outcome::Advice),
        Call::ReadLedger(ledger) => match words::read_ledger(state, entries, ledger) {
            Ok(part) => model_part(part),
            Err(number) => Outcome::Part { answer: Answer::Refused(number), start: 0, count: 0 },
        },
        Call::ReadChain => model_count(words::read_chain(state, entries, output)),
        Call::LedgerAt(place) => listed(words::ledger_at(state, entries, place).map_err(Answer::Refused)),
        Call::LedgerSum(ledger) => sum(words::ledger_sum(state, entries, ledger).map_err(Answer::Refused)),
        Call::RunTotal => total(words::run_total(state, entries).map(in_numbers).map_err(Answer::Refused)),
        Call::FirstWindow(length, limit) => {
            window(words::first_window(state, entries, length, limit).map_err(Answer::Refused))
        }
        Call::SetMark(name) => Outcome::Answer(marks::set(state, entries, marks, name)),
        Call::DropMark(name) => Outcome::Answer(marks::drop(state, entries, marks, name)),
        Call::ReadMark(name) => model_count(marks::read(state, entries, marks, name, output)),
    }
}

/// 25 before all else where the number is no step's.
fn model_take(number: u64, value: u64, take: impl FnOnce(Step) -> Answer) -> Outcome {
    Outcome::Answer(plans::step(number, value).map_or(Answer::Refused(25), take))
}

fn model_count(given: Result<usize, u64>) -> Outcome {
    match given {
        Ok(count) => Outcome::Count { answer: Answer::Done, count: count as u64 },
        Err(number) => Outcome::Count { answer: Answer::Refused(number), count: 0 },
    }
}

/// A total in parts of 10^-12 as ones of 10^12 of them, the parts beside those, and the whole in thousandths, a half rounded up.
fn in_numbers(parts: u128) -> [u64; 3] {
    [parts / 10_u128.pow(12), parts % 10_u128.pow(12), (parts + 500_000_000) / 10_u128.pow(9)]
        .map(|number| number as u64)
}

fn listed(given: Result<u64, Answer>) -> Outcome {
    let (answer, ledger) = given.map_or_else(|answer| (answer, 0), |ledger| (Answer::Done, ledger));
    Outcome::Listed { answer, ledger }
}

fn sum(given: Result<(u64, u64), Answer>) -> Outcome {
    let (answer, (entries, sum)) = given.map_or_else(|answer| (answer, (0, 0)), |sum| (Answer::Done, sum));
    Outcome::Sum { answer, entries, sum }
}

fn total(given: Result<[u64; 3], Answer>) -> Outcome {
    let (answer, [ones, parts, rounded]) = given.map_or_else(|answer| (answer, [0; 3]), |total| (Answer::Done, total));
    Outcome::Total { answer, ones, parts, rounded }
}

fn window(given: Result<Option<u64>, Answer>) -> Outcome {
    match given {
        Ok(start) => Outcome::Window { answer: Answer::Done, found: start.is_some() as u64, start: start.unwrap_or(0) },
        Err(answer) => Outcome::Window { answer, found: 0, start: 0 },
    }
}

fn model_part(part: Range<usize>) -> Outcome {
    let part = if part.is_empty() { 0..0 } else { part };
    Outcome::Part { answer: Answer::Done, start: part.start as u64, count: part.len() as u64 }
}

/// The library's side, through the crate for controllers.
pub fn library(call: Call, lent: &mut Lent) -> Outcome {
    use cindrolf::{MarkName, calls};
    let Lent { state, entries, marks, rights, plan, .. } = lent;
    match call {
        Call::Fresh(count) => accepted(calls::fresh(state, entries, count)),
        Call::Step(client, step) => Outcome::Answer(library_step(state, entries, client, step)),
        Call::StepWith(client, step) => Outcome::Answer(library_step_with(state, entries, rights, client, step)),
        Call::Take(number, client, value) => library_take(state, entries, [number, client, value]),
        Call::TakeWith(number, client, value) => library_take_with(state, entries, rights, [number, client, value]),
        Call::RunPlan(budget) => Outcome::Taken(calls::run_plan(state, entries, rights, plan, budget)),
        Call::Forecast(budget) => {
            let cindrolf::Forecast { entries, ledgers, refusals } =
                calls::forecast(state, entries, rights, plan, budget);
            Outcome::Forecast(Counts { entries, ledgers, refusals })
        }
        Call::WellFormed => Outcome::WellFormed(calls::well_formed(state, entries)),
        Call::Advise(client) => library_advice(state, entries, client),
        Call::ReadLedger(ledger) => library_ledger(lent, ledger),
        Call::ReadChain => library_chain(lent),
        Call::LedgerAt(place) => library_place(lent, place),
        Call::LedgerSum(ledger) => library_sum(lent, ledger),
        Call::RunTotal => library_total(lent),
        Call::FirstWindow(length, limit) => library_window(lent, length, limit),
        Call::SetMark(name) => accepted(calls::set_mark(state, entries, marks, MarkName::from_word(name))),
        Call::DropMark(name) => accepted(calls::drop_mark(state, entries, marks, MarkName::from_word(name))),
        Call::ReadMark(name) => library_mark(lent, name),
    }
}

fn accepted(given: Result<(), cindrolf::Error>) -> Outcome {
    Outcome::Answer(given.map_or_else(failed, done))
}

fn library_advice(state: &[u64], entries: &[u64], client: u64) -> Outcome {
    use cindrolf::{Kind, calls};
    let step = |kind| match kind {
        // It is never advised, and the model has it so: it would show as a difference.
        Kind::Name => Step::Name,
        Kind::Become => Step::Become,
        Kind::Abdicate => Step::Abdicate,
        Kind::Fetch => Step::Fetch,
        Kind::CloseLast => Step::CloseLast,
        Kind::Finish => Step::Finish,
        Kind::Create => Step::Create,
        Kind::Append => Step::Append,
        Kind::Write => Step::Write(0),
        Kind::CloseOwn => Step::CloseOwn,
    };
    match calls::advise(state, entries, client) {
        Ok(advice) => Outcome::Advice(advice.map(step)),
        Err(error) => Outcome::Answer(failed(error)),
    }
}

// On a refusal the crate gives no part and no count, so those come from the function below it.
fn library_ledger(lent: &Lent, ledger: u64) -> Outcome {
    use cindrolf::{LedgerNumber, calls, raw};
    let (state, entries) = (&*lent.state, &*lent.entries);
    // SAFETY: both slices are valid for their lengths, and nothing is changed.
    let given =
        unsafe { raw::cindrolf_read_ledger(state.as_ptr(), state.len(), entries.as_ptr(), entries.len(), ledger) };
    let outcome = Outcome::Part { answer: numbered(given.answer), start: given.start, count: given.count };
    let handed_on = match calls::read_ledger(state, entries, LedgerNumber(ledger)) {
        Ok(part) => {
            let part = place_of(part, entries);
            Outcome::Part { answer: Answer::Done, start: part.start as u64, count: part.len() as u64 }
        }
        Err(error) => Outcome::Part { answer: failed(error), start: given.start, count: given.count },
    };
    if outcome == handed_on { outcome } else { Outcome::NotHandedOn(Box::new(outcome)) }
}

// The second reading writes the same words as the first.
fn library_chain(lent: &mut Lent) -> Outcome {
    use cindrolf::{calls, raw};
    let Lent { state, entries, output, .. } = lent;
    // SAFETY: the slices are valid for their lengths, and the output, which alone is changed, is exclusive.
    let given = unsafe {
        raw::cindrolf_read_chain(
            state.as_ptr(),
            state.len(),
            entries.as_ptr(),
            entries.len(),
            output.as_mut_ptr(),
            output.len(),
        )
    };
    library_count(given, calls::read_chain(state, entries, output))
}

// As for read chain.
fn library_mark(lent: &mut Lent, name: u64) -> Outcome {
    use cindrolf::{MarkName, calls, raw};
    let Lent { state, entries, marks, output, .. } = lent;
    // SAFETY: the slices are valid for their lengths, and the output, which alone is changed, is exclusive.
    let given = unsafe {
        raw::cindrolf_mark_read(
            state.as_ptr(),
            state.len(),
            entries.as_ptr(),
            entries.len(),
            marks.as_ptr(),
            marks.len(),
            name,
            output.as_mut_ptr(),
            output.len(),
        )
    };
    library_count(given, calls::read_mark(state, entries, marks, MarkName::from_word(name), output))
}

fn library_count(given: cindrolf::raw::ChainCount, handed_on: Result<usize, cindrolf::Error>) -> Outcome {
    let outcome = Outcome::Count { answer: numbered(given.answer), count: given.count };
    let handed_on = match handed_on {
        Ok(count) => Outcome::Count { answer: Answer::Done, count: count as u64 },
        Err(error) => Outcome::Count { answer: failed(error), count: given.count },
    };
    if outcome == handed_on { outcome } else { Outcome::NotHandedOn(Box::new(outcome)) }
}

fn library_place(lent: &Lent, place: u64) -> Outcome {
    use cindrolf::{ListPlace, calls, raw};
    let (state, entries) = (&*lent.state, &*lent.entries);
    // SAFETY: both slices are valid for their lengths, and nothing is changed.
    let given = unsafe { raw::cindrolf_ledger_at(state.as_ptr(), state.len(), entries.as_ptr(), entries.len(), place) };
    let outcome = Outcome::Listed { answer: numbered(given.answer), ledger: given.ledger };
    let handed_on = calls::ledger_at(state, entries, ListPlace(place)).map(|ledger| ledger.0);
    if outcome == listed(handed_on.map_err(failed)) { outcome } else { Outcome::NotHandedOn(Box::new(outcome)) }
}

fn library_sum(lent: &Lent, ledger: u64) -> Outcome {
    use cindrolf::{LedgerNumber, calls, raw};
    let (state, entries) = (&*lent.state, &*lent.entries);
    // SAFETY: both slices are valid for their lengths, and nothing is changed.
    let given =
        unsafe { raw::cindrolf_ledger_sum(state.as_ptr(), state.len(), entries.as_ptr(), entries.len(), ledger) };
    let outcome = Outcome::Sum { answer: numbered(given.answer), entries: given.entries, sum: given.sum };
    let handed_on = calls::ledger_sum(state, entries, LedgerNumber(ledger));
    let handed_on = handed_on.map(|ledger| (ledger.entries, ledger.sum));
    if outcome == sum(handed_on.map_err(failed)) { outcome } else { Outcome::NotHandedOn(Box::new(outcome)) }
}

fn library_total(lent: &Lent) -> Outcome {
    use cindrolf::{calls, raw};
    let (state, entries) = (&*lent.state, &*lent.entries);
    // SAFETY: both slices are valid for their lengths, and nothing is changed.
    let given = unsafe { raw::cindrolf_run_total(state.as_ptr(), state.len(), entries.as_ptr(), entries.len()) };
    let raw::SummedRun { answer, ones, parts, rounded } = given;
    let outcome = Outcome::Total { answer: numbered(answer), ones, parts, rounded };
    let handed_on = calls::run_total(state, entries).map(|total| [total.ones, total.parts, total.rounded]);
    if outcome == total(handed_on.map_err(failed)) { outcome } else { Outcome::NotHandedOn(Box::new(outcome)) }
}

fn library_window(lent: &Lent, length: u64, limit: u64) -> Outcome {
    use cindrolf::{calls, raw};
    let (state, entries) = (&*lent.state, &*lent.entries);
    // SAFETY: both slices are valid for their lengths, and nothing is changed.
    let given = unsafe {
        raw::cindrolf_first_window(state.as_ptr(), state.len(), entries.as_ptr(), entries.len(), length, limit)
    };
    let outcome = Outcome::Window { answer: numbered(given.answer), found: given.found, start: given.start };
    let handed_on = calls::first_window(state, entries, length, limit).map(|start| start.map(|place| place.0));
    if outcome == window(handed_on.map_err(failed)) { outcome } else { Outcome::NotHandedOn(Box::new(outcome)) }
}

/// A reader's answer by its number. Readers answer done or a refusal; anything else shows as a difference.
fn numbered(number: u64) -> Answer {
    match number {
        0 => Answer::Done,
        257..=284 => Answer::Refused(number - 256),
        _ => Answer::Refused(u64::MAX),
    }
}

/// A step's answer by its number.
fn step_answer(number: u64) -> Answer {
    match number {
        1 => Answer::WasClosed,
        2 => Answer::Behind,
        0x1_0000_0000.. => Answer::Entry { number: (number - 0x1_0000_0000) >> 16, place: number & 0xFFFF },
        number => numbered(number),
    }
}

fn library_take(state: &mut [u64], entries: &mut [u64], [step, client, value]: [u64; 3]) -> Outcome {
    let (words, room) = (state.len(), entries.len());
    // SAFETY: both slices are valid for their lengths, and apart.
    let given = unsafe {
        cindrolf::raw::cindrolf_take(state.as_mut_ptr(), words, entries.as_mut_ptr(), room, step, client, value)
    };
    Outcome::Answer(step_answer(given))
}

fn library_take_with(
    state: &mut [u64],
    entries: &mut [u64],
    rights: &[u64],
    [step, client, value]: [u64; 3],
) -> Outcome {
    let (words, room, lent) = (state.len(), entries.len(), rights.len());
    let (state, entries, rights) = (state.as_mut_ptr(), entries.as_mut_ptr(), rights.as_ptr());
    // SAFETY: the three slices are valid for their lengths, and apart.
    let given =
        unsafe { cindrolf::raw::cindrolf_take_with(state, words, entries, room, rights, lent, step, client, value) };
    Outcome::Answer(step_answer(given))
}

/// A step of the library, without rights.
pub fn library_step(state: &mut [u64], entries: &mut [u64], client: u64, step: Step) -> Answer {
    use cindrolf::calls;
    match step {
        Step::Name => calls::name(state, entries, client).map_or_else(failed, done),
        Step::Become => calls::become_leader(state, entries, client).map_or_else(failed, done),
        Step::Abdicate => calls::abdicate(state, entries, client).map_or_else(failed, done),
        Step::Fetch => calls::fetch(state, entries, client).map_or_else(failed, done),
        Step::CloseLast => calls::close_last(state, entries, client).map_or_else(failed, close_last),
        Step::Finish => calls::finish(state, entries, client).map_or_else(failed, finish),
        Step::Create => calls::create(state, entries, client).map_or_else(failed, done),
        Step::Append => calls::append(state, entries, client).map_or_else(failed, progress),
        Step::Write(value) => calls::write(state, entries, client, value).map_or_else(failed, entry),
        Step::WriteScores(scores) => {
            with_scores(scores, |scores| calls::write_scores(state, entries, client, scores).map_or_else(failed, entry))
        }
        Step::CloseOwn => calls::close_own(state, entries, client).map_or_else(failed, progress),
    }
}

/// A step of the library under rights.
pub fn library_step_with(state: &mut [u64], entries: &mut [u64], rights: &[u64], client: u64, step: Step) -> Answer {
    use cindrolf::calls;
    match step {
        Step::Name => calls::name_with(state, entries, rights, client).map_or_else(failed, done),
        Step::Become => calls::become_leader_with(state, entries, rights, client).map_or_else(failed, done),
        Step::Abdicate => calls::abdicate_with(state, entries, rights, client).map_or_else(failed, done),
        Step::Fetch => calls::fetch_with(state, entries, rights, client).map_or_else(failed, done),
        Step::CloseLast => calls::close_last_with(state, entries, rights, client).map_or_else(failed, close_last),
        Step::Finish => calls::finish_with(state, entries, rights, client).map_or_else(failed, finish),
        Step::Create => calls::create_with(state, entries, rights, client).map_or_else(failed, done),
        Step::Append => calls::append_with(state, entries, rights, client).map_or_else(failed, progress),
        Step::Write(value) => calls::write_with(state, entries, rights, client, value).map_or_else(failed, entry),
        Step::WriteScores(scores) => with_scores(scores, |scores| {
            calls::write_scores_with(state, entries, rights, client, scores).map_or_else(failed, entry)
        }),
        Step::CloseOwn => calls::close_own_with(state, entries, rights, client).map_or_else(failed, progress),
    }
}

fn close_last(given: cindrolf::CloseLast) -> Answer {
    match given {
        cindrolf::CloseLast::Done => Answer::Done,
        cindrolf::CloseLast::WasClosed => Answer::WasClosed,
        cindrolf::CloseLast::Behind => Answer::Behind,
    }
}

fn finish(given: cindrolf::Finish) -> Answer {
    match given {
        cindrolf::Finish::Done => Answer::Done,
        cindrolf::Finish::Behind => Answer::Behind,
    }
}

fn progress(given: cindrolf::Progress) -> Answer {
    match given {
        cindrolf::Progress::Done => Answer::Done,
        cindrolf::Progress::Behind => Answer::Behind,
    }
}

fn entry(at: cindrolf::Position) -> Answer {
    Answer::Entry { number: at.number.0, place: at.place.0 }
}

/// Lends the scores from memory where those around them are too high, so that one read too many shows. They must stay
/// as they were, and so must those around them.
fn with_scores(scores: &[u16], call: impl FnOnce(&mut [u16]) -> Answer) -> Answer {
    let around = [u16::MAX; 3];
    let surrounded = [&around, scores, &around].concat();
    let mut lent = surrounded.clone();
    // What is lent to be read is taken to stay as it is; the black boxes have it looked at all the same.
    let answer = call(&mut black_box(&mut lent)[around.len()..][..scores.len()]);
    if *black_box(&lent) == surrounded { answer } else { Answer::Refused(u64::MAX) }
}

fn done((): ()) -> Answer {
    Answer::Done
}

/// A refusal by its number. The model has none of the other errors, so any of them shows as a difference.
fn failed(error: cindrolf::Error) -> Answer {
    Answer::Refused(error.refusal().map_or(u64::MAX, |refusal| refusal.number()))
}

/// Where in these words the part lies, by its address: it must be the very part, not a copy.
fn place_of(part: &[u64], words: &[u64]) -> Range<usize> {
    let start = (part.as_ptr().addr() - words.as_ptr().addr()) / size_of::<u64>();
    start..start + part.len()
}

#[cfg(test)]
mod tests {
    use super::*;

    #[test]
    fn finds_a_changed_score() {
        assert_eq!(with_scores(&[7, 8], |_| Answer::Done), Answer::Done);
        let changed = with_scores(&[7, 8], |scores| {
            scores[1] = 9;
            Answer::Done
        });
        assert_eq!(changed, Answer::Refused(u64::MAX));
    }
}
