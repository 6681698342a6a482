//! How many calls of each operation were compared, and how often each answer was met.

use crate::call::{Call, Outcome};
use model::plans;
use model::{Answer, Step};
use std::fmt;

/// The operations, in the reference's order, each with the answers that it can give: 1 to 25 are refusals. None gives 14. A step
/// counts the same without rights and with them, and gives 24 only with them. A run gives no refusal.
const OPERATIONS: [(&str, &[usize]); 26] = [
    ("fresh", &[DONE, 1, 17]),
    ("name", &[DONE, 1, 2, 3, 4, 24]),
    ("become", &[DONE, 1, 2, 3, 5, 6, 24]),
    ("abdicate", &[DONE, 1, 2, 3, 4, 7, 24]),
    ("fetch", &[DONE, 1, 2, 3, 7, 8, 24]),
    ("close last", &[DONE, WAS_CLOSED, BEHIND, 1, 2, 3, 7, 8, 9, 24]),
    ("finish", &[DONE, BEHIND, 1, 2, 3, 7, 8, 9, 24]),
    ("create", &[DONE, 1, 2, 3, 7, 8, 10, 24]),
    ("append", &[DONE, BEHIND, 1, 2, 3, 7, 8, 9, 24]),
    ("write", &[ENTRY, 1, 2, 3, 7, 8, 9, 11, 12, 13, 24]),
    ("write scores", &[ENTRY, 1, 2, 3, 7, 8, 9, 12, 13, 18, 19, 24]),
    ("close own", &[DONE, BEHIND, 1, 2, 3, 7, 8, 9, 24]),
    ("by number", &[DONE, WAS_CLOSED, BEHIND, ENTRY, 1, 2, 3, 4, 5, 6, 7, 8, 9, 10, 11, 12, 13, 24, 25]),
    ("run plan", &[WHOLE, CUT]),
    ("forecast", &[ADDS, REFUSALS, NONE]),
    ("well formed", &[YES, NO]),
    ("advise", &[BECOME, ABDICATE, FETCH, CLOSE_LAST, FINISH, CREATE, APPEND, WRITE, CLOSE_OWN, NONE, 1, 2, 3]),
    ("read ledger", &[DONE, 1, 2, 15]),
    ("read chain", &[DONE, 1, 2, 16]),
    ("ledger at", &[DONE, 1, 2, 15]),
    ("ledger sum", &[DONE, 1, 2, 15]),
    ("run total", &[DONE, WIDE, 1, 2]),
    ("first window", &[FOUND, NONE, 1, 2, 20]),
    ("set mark", &[DONE, 1, 2, 21, 22]),
    ("drop mark", &[DONE, 1, 2, 23]),
    ("read mark", &[DONE, 1, 2, 16, 23]),
];

const DONE: usize = 26;
const WAS_CLOSED: usize = DONE + 1;
const BEHIND: usize = DONE + 2;
const ENTRY: usize = DONE + 3;
const YES: usize = DONE + 4;
const NO: usize = DONE + 5;
const FOUND: usize = DONE + 6;
const NONE: usize = DONE + 7;
const BECOME: usize = DONE + 8;
const ABDICATE: usize = DONE + 9;
const FETCH: usize = DONE + 10;
const CLOSE_LAST: usize = DONE + 11;
const FINISH: usize = DONE + 12;
const CREATE: usize = DONE + 13;
const APPEND: usize = DONE + 14;
const WRITE: usize = DONE + 15;
const CLOSE_OWN: usize = DONE + 16;
const WHOLE: usize = DONE + 17;
const CUT: usize = DONE + 18;
const ADDS: usize = DONE + 19;
const REFUSALS: usize = DONE + 20;
const WIDE: usize = DONE + 21;
const NAMES: [&str; 22] = [
    "done",
    "was closed",
    "behind",
    "entry",
    "yes",
    "no",
    "found",
    "none",
    "become",
    "abdicate",
    "fetch",
    "close last",
    "finish",
    "create",
    "append",
    "write",
    "close own",
    "within the budget",
    "up to the budget",
    "adds",
    "only refusals",
    "past 64 bits",
];

/// The counts of one operation, by answer.
type Counts = [u64; DONE + NAMES.len()];

const NO_COUNTS: Counts = [0; DONE + NAMES.len()];

/// The counts, by operation and answer.
#[derive(Clone, Debug)]
pub struct Tally([Counts; OPERATIONS.len()]);

impl Default for Tally {
    fn default() -> Self {
        Tally([NO_COUNTS; OPERATIONS.len()])
    }
}

impl Tally {
    /// Counts a compared call.
    pub fn count(&mut self, call: Call, outcome: &Outcome) {
        self.0[operation(call)][column(call, outcome)] += 1;
    }

    /// How many calls were compared.
    pub fn calls(&self) -> u64 {
        self.0.iter().flatten().sum()
    }

    /// The answers that an operation can give and that weren't met, as text.
    pub fn never_met(&self) -> Vec<String> {
        let mut missing = vec![];
        for (counts, (name, answers)) in self.0.iter().zip(OPERATIONS) {
            let unmet = answers.iter().filter(|&&answer| counts[answer] == 0);
            missing.extend(unmet.map(|&answer| format!("{name}: {}", answer_name(answer))));
        }
        missing
    }
}

fn operation(call: Call) -> usize {
    match call {
        Call::Fresh(_) => 0,
        Call::Step(_, step) | Call::StepWith(_, step) => match step {
            Step::Name => 1,
            Step::Become => 2,
            Step::Abdicate => 3,
            Step::Fetch => 4,
            Step::CloseLast => 5,
            Step::Finish => 6,
            Step::Create => 7,
            Step::Append => 8,
            Step::Write(_) => 9,
            Step::WriteScores(_) => 10,
            Step::CloseOwn => 11,
        },
        Call::Take(..) | Call::TakeWith(..) => 12,
        Call::RunPlan(_) => 13,
        Call::Forecast(_) => 14,
        Call::WellFormed => 15,
        Call::Advise(_) => 16,
        Call::ReadLedger(_) => 17,
        Call::ReadChain => 18,
        Call::LedgerAt(_) => 19,
        Call::LedgerSum(_) => 20,
        Call::RunTotal => 21,
        Call::FirstWindow(..) => 22,
        Call::SetMark(_) => 23,
        Call::DropMark(_) => 24,
        Call::ReadMark(_) => 25,
    }
}

fn column(call: Call, outcome: &Outcome) -> usize {
    match (outcome, outcome.answer()) {
        (_, Some(Answer::Refused(number))) => number as usize,
        (Outcome::Window { found, .. }, Some(Answer::Done)) => [NONE, FOUND][(*found != 0) as usize],
        // More ones than a number of 64 bits can have.
        (Outcome::Total { ones: 18_446_745.., .. }, Some(Answer::Done)) => WIDE,
        (_, Some(Answer::Done)) => DONE,
        (_, Some(Answer::WasClosed)) => WAS_CLOSED,
        (_, Some(Answer::Behind)) => BEHIND,
        (_, Some(Answer::Entry { .. })) => ENTRY,
        (Outcome::WellFormed(true), None) => YES,
        (Outcome::Taken(taken), None) => [WHOLE, CUT][(call == Call::RunPlan(*taken)) as usize],
        (Outcome::Forecast(plans::Counts { entries: 0, ledgers: 0, refusals: 0 }), None) => NONE,
        (Outcome::Forecast(plans::Counts { entries: 0, ledgers: 0, .. }), None) => REFUSALS,
        (Outcome::Forecast(_), None) => ADDS,
        (Outcome::Advice(step), None) => step.map_or(NONE, advised),
        (_, None) => NO,
    }
}

fn advised(step: Step) -> usize {
    match step {
        Step::Become => BECOME,
        Step::Abdicate => ABDICATE,
        Step::Fetch => FETCH,
        Step::CloseLast => CLOSE_LAST,
        Step::Finish => FINISH,
        Step::Create => CREATE,
        Step::Append => APPEND,
        Step::Write(_) | Step::WriteScores(_) => WRITE,
        Step::CloseOwn => CLOSE_OWN,
        Step::Name => unreachable!("name is never advised"),
    }
}

fn answer_name(answer: usize) -> String {
    match answer {
        DONE.. => NAMES[answer - DONE].into(),
        number => format!("refusal {number}"),
    }
}

/// A line for each operation, then a line for the whole.
impl fmt::Display for Tally {
    fn fmt(&self, f: &mut fmt::Formatter<'_>) -> fmt::Result {
        let mut whole = NO_COUNTS;
        for (counts, (name, _)) in self.0.iter().zip(OPERATIONS) {
            line(f, name, counts)?;
            whole.iter_mut().zip(counts).for_each(|(sum, count)| *sum += count);
        }
        line(f, "all", &whole)
    }
}

fn line(f: &mut fmt::Formatter<'_>, name: &str, counts: &Counts) -> fmt::Result {
    write!(f, "{name:<12}{:>10} calls:", counts.iter().sum::<u64>())?;
    for answer in (DONE..counts.len()).chain(1..DONE).filter(|&answer| counts[answer] > 0) {
        write!(f, "  {} {}", answer_name(answer), counts[answer])?;
    }
    writeln!(f)
}
