//! Random histories from fresh logs, on the library, on the model of the words and on LedgerChaining's terms.

use crate::buffers::{any_call, any_window};
use crate::call::{Buffers, Call, Outcome, Subject};
use crate::plans::{any_budget, sensible_plan};
use crate::rights::any_rights;
use crate::shrink::{shorten, takes_plan, with_fewer_scores};
use crate::sides::Sides;
use model::histories::{Profile, any_client};
use model::layout::{ENTRY_WORDS, SMALL_ENTRY_WORDS, STATE_WORDS};
use model::marks::{LIMIT, MARK_WORDS};
use model::plans::{Counts, parts, within};
use model::random::Random;
use model::rights::{self, RIGHTS_WORDS};
use model::source::{Source, Taken};
use model::{Answer, Step};
use std::fmt::Write;

/// Steps of the longest history: enough to reach both limits.
const LONGEST: u64 = 6_000;

/// A history ends after so many steps for which the log had no ledger number or no room left.
const MOST_AT_LIMIT: u64 = 100;

/// The most steps of a plan in a history.
const LONGEST_PLAN: u64 = 20;

/// A call, and what is lent with it: rights, where it is a step under rights or a run, and the plan of a run.
#[derive(Clone)]
struct Turn {
    call: Call,
    rights: Vec<u64>,
    plan: Vec<u64>,
}

/// A fresh log and what comes after it.
struct History {
    client_count: u64,
    capacity: usize,
    turns: Vec<Turn>,
}

/// One history as it runs.
struct Run<'a> {
    sides: &'a mut Sides,
    source: Source,
    /// The marks that are kept, each with the chain reading when it was set.
    marks: Vec<(u64, Vec<u64>)>,
    at_limit: u64,
}

/// Compares one history. The error is a report with the shortest history found.
pub fn compare(subject: Subject, sides: &mut Sides, random: &mut Random) -> Result<(), String> {
    let profile = random.pick(&Profile::ALL);
    let capacity = random.pick(&[SMALL_ENTRY_WORDS, ENTRY_WORDS]);
    let mut history = History { client_count: random.between(1, 16), capacity, turns: vec![] };
    let length = if random.chance(20) { LONGEST } else { random.between(1, 600) };
    let run = Run::start(sides, history.client_count, capacity);
    let mut run = run.map_err(|text| report(subject, &history, text))?;
    for _ in 0..length {
        for turn in next_turns(random, &profile, &run.source) {
            history.turns.push(turn.clone());
            if let Err(text) = run.take(&turn) {
                return Err(report(subject, &history, text));
            }
        }
        if run.at_limit > MOST_AT_LIMIT {
            break;
        }
    }
    Ok(())
}

/// The next call of a history that has come to this state; before a run its forecast.
fn next_turns(random: &mut Random, profile: &Profile, source: &Source) -> Vec<Turn> {
    let client_count = source.c_state.len() as u64;
    let call = match random.below(53) {
        0 => Call::WellFormed,
        1 => Call::ReadLedger(random.below(source.md_next_lid + 1)),
        2 => Call::ReadChain,
        3 => any_window(random, &source.chain()),
        4 | 5 => Call::Advise(any_client(random, client_count)),
        6..=9 => any_mark_call(random),
        10 if random.chance(50) => return any_run(random, profile, source),
        50 => Call::LedgerAt(random.below(source.md_llist.len() as u64 + 2)),
        51 => Call::LedgerSum(random.below(source.md_next_lid + 1)),
        52 => Call::RunTotal,
        _ => {
            let (client, step) = profile.next(random, source);
            any_call(random)(client, step)
        }
    };
    let rights = match call {
        Call::StepWith(client, step) => any_rights(random, client_count, client, step),
        _ => vec![],
    };
    vec![Turn { call, rights, plan: vec![] }]
}

/// A run as the history may go on, after its forecast.
fn any_run(random: &mut Random, profile: &Profile, source: &Source) -> Vec<Turn> {
    let (client, step) = profile.next(random, source);
    let rights = any_rights(random, source.c_state.len() as u64, client, step);
    let length = random.below(LONGEST_PLAN + 1) as usize;
    let plan = sensible_plan(random, profile, source, &rights, length);
    let budget = any_budget(random, length);
    let turn = |call| Turn { call, rights: rights.clone(), plan: plan.clone() };
    vec![turn(Call::Forecast(budget)), turn(Call::RunPlan(budget))]
}

/// A call by one of so few names that most are kept sooner or later, or by name 0.
fn any_mark_call(random: &mut Random) -> Call {
    let name = random.below(LIMIT as u64 + 8);
    match random.below(10) {
        0 => Call::DropMark(name),
        1..=4 => Call::ReadMark(name),
        _ => Call::SetMark(name),
    }
}

impl<'a> Run<'a> {
    fn start(sides: &'a mut Sides, client_count: u64, capacity: usize) -> Result<Self, String> {
        let output = (0..capacity as u64).map(|index| !index).collect();
        let (state, entries) = (vec![u64::MAX; STATE_WORDS], vec![5; capacity]);
        sides.set(&Buffers { state, entries, marks: vec![0; MARK_WORDS], output, ..Buffers::default() });
        sides.call(Call::Fresh(client_count)).map_err(|difference| difference.to_string())?;
        Ok(Run { sides, source: Source::init_with(client_count, capacity), marks: vec![], at_limit: 0 })
    }

    fn take(&mut self, turn: &Turn) -> Result<(), String> {
        let call = turn.call;
        self.sides.set_rights(&turn.rights);
        self.sides.set_plan(&turn.plan);
        let outcome = self.sides.call(call).map_err(|difference| difference.to_string())?;
        if self.agrees(turn, &outcome) {
            Ok(())
        } else {
            Err(format!("{call}: the library gives {outcome:?}, LedgerChaining says otherwise\n"))
        }
    }

    /// Whether LedgerChaining says the same of a call, and follows it.
    fn agrees(&mut self, turn: &Turn, outcome: &Outcome) -> bool {
        match (turn.call, outcome) {
            (Call::Step(client, step), Outcome::Answer(answer)) => self.source_agrees(true, client, step, *answer),
            (Call::StepWith(client, step), Outcome::Answer(answer)) => {
                self.source_agrees_under(&turn.rights, client, step, *answer)
            }
            (Call::Forecast(budget), Outcome::Forecast(counts)) => {
                *counts == run_source(&mut self.source.clone(), &turn.rights, within(&turn.plan, budget)).0
            }
            (Call::RunPlan(budget), Outcome::Taken(taken)) => {
                let plan = within(&turn.plan, budget);
                self.at_limit += run_source(&mut self.source, &turn.rights, plan).1;
                *taken == plan.len() as u64 && self.is_source()
            }
            (Call::Advise(client), Outcome::Advice(step)) => {
                client < self.source.c_state.len() as u64 && *step == self.source.advise(client)
            }
            (Call::Advise(client), outcome) => {
                client >= self.source.c_state.len() as u64 && outcome.answer() == Some(Answer::Refused(3))
            }
            (call, outcome) => self.reading_agrees(call, outcome),
        }
    }

    /// The same for readings and marks.
    fn reading_agrees(&mut self, call: Call, outcome: &Outcome) -> bool {
        match (call, outcome) {
            (Call::ReadLedger(ledger), Outcome::Part { answer: Answer::Done, start, count }) => {
                let part = *start as usize..(start + count) as usize;
                self.source.ledger(ledger).is_some_and(|words| words == self.sides.buffers().entries[part])
            }
            (Call::ReadLedger(ledger), _) => self.source.ledger(ledger).is_none(),
            (Call::ReadChain, Outcome::Count { answer: Answer::Done, count }) => {
                self.sides.buffers().output[..*count as usize] == self.source.chain()
            }
            (Call::LedgerAt(_) | Call::LedgerSum(_) | Call::RunTotal, _) => self.total_agrees(call, outcome),
            (Call::FirstWindow(length, limit), Outcome::Window { answer: Answer::Done, found, start }) => {
                first_over(&self.source.chain(), length as usize, limit) == (*found == 1).then_some(*start as usize)
            }
            (Call::FirstWindow(length, _), _) => {
                outcome.answer() == Some(Answer::Refused(20)) && !(1..=256).contains(&length)
            }
            (Call::SetMark(name), outcome) => outcome.answer() == Some(self.set_mark(name)),
            (Call::DropMark(name), outcome) => outcome.answer() == Some(self.drop_mark(name)),
            (Call::ReadMark(name), Outcome::Count { answer, count }) => self.mark_reading_agrees(name, *answer, *count),
            (_, outcome) => *outcome == Outcome::WellFormed(true),
        }
    }

    /// The same for the list and the totals.
    fn total_agrees(&self, call: Call, outcome: &Outcome) -> bool {
        match (call, outcome) {
            (Call::LedgerAt(place), Outcome::Listed { answer, ledger }) => {
                let here = place.checked_sub(1).and_then(|index| self.source.md_llist.get(index as usize));
                here.map_or((Answer::Refused(15), 0), |&here| (Answer::Done, here)) == (*answer, *ledger)
            }
            (Call::LedgerSum(ledger), Outcome::Sum { answer, entries, sum }) => {
                let words = self.source.ledger(ledger);
                let summed = words.map(|words| (Answer::Done, words.len() as u64, sum_of(&words)));
                summed.unwrap_or((Answer::Refused(15), 0, 0)) == (*answer, *entries, *sum)
            }
            (Call::RunTotal, Outcome::Total { answer: Answer::Done, ones, parts, rounded }) => {
                let total = sum_of(&self.source.chain());
                let thousandths = total / 1_000_000_000 + u64::from(total % 1_000_000_000 >= 500_000_000);
                (total / 1_000_000_000_000, total % 1_000_000_000_000, thousandths) == (*ones, *parts, *rounded)
            }
            _ => false,
        }
    }

    fn kept(&self, name: u64) -> Option<usize> {
        self.marks.iter().position(|(kept, _)| *kept == name)
    }

    fn set_mark(&mut self, name: u64) -> Answer {
        match self.marks.len() {
            _ if name == 0 || self.kept(name).is_some() => Answer::Refused(21),
            LIMIT => Answer::Refused(22),
            _ => {
                self.marks.push((name, self.source.chain()));
                Answer::Done
            }
        }
    }

    fn drop_mark(&mut self, name: u64) -> Answer {
        match self.kept(name) {
            Some(place) => {
                self.marks.remove(place);
                Answer::Done
            }
            None => Answer::Refused(23),
        }
    }

    /// Whatever steps came since, a reading at a mark is the chain reading as it was when the mark was last set.
    fn mark_reading_agrees(&self, name: u64, answer: Answer, count: u64) -> bool {
        match self.kept(name) {
            Some(place) => {
                answer == Answer::Done && self.sides.buffers().output[..count as usize] == self.marks[place].1
            }
            None => answer == Answer::Refused(23),
        }
    }

    /// LedgerChaining knows of no buffers, so rights that are malformed leave it as it is.
    fn source_agrees_under(&mut self, lent: &[u64], client: u64, step: Step, answer: Answer) -> bool {
        let count = self.source.c_state.len() as u64;
        if lent.len() != RIGHTS_WORDS {
            return answer == Answer::Refused(1);
        }
        if !rights::well_formed(lent, count) {
            return answer == Answer::Refused(2);
        }
        self.source_agrees(client < count && rights::allows(lent, client, step), client, step, answer)
    }

    fn source_agrees(&mut self, has_right: bool, client: u64, step: Step, answer: Answer) -> bool {
        let answers = match self.source.step_with(has_right, client, step) {
            Taken::Accepted(expected) => answer == expected,
            Taken::Limit(number) => {
                self.at_limit += u64::from(matches!(number, 10 | 13));
                answer == Answer::Refused(number)
            }
            Taken::Forbidden => {
                return matches!(answer, Answer::Refused(number) if self.source.forbids_with(has_right, client, number));
            }
        };
        answers && self.is_source()
    }

    fn is_source(&self) -> bool {
        let (state, entries) = self.source.buffers();
        state == self.sides.buffers().state && entries == self.sides.buffers().entries
    }
}

/// A run in LedgerChaining's terms: what it adds, and how many of its steps found the log at a limit. It knows of no buffers, so under rights
/// that are malformed every step is refused.
fn run_source(source: &mut Source, lent: &[u64], plan: &[u64]) -> (Counts, u64) {
    let count = source.c_state.len() as u64;
    let formed = lent.len() == RIGHTS_WORDS && rights::well_formed(lent, count);
    let (before, mut refusals, mut at_limit) = ((source.next_entry_id, source.md_next_lid), 0, 0);
    for &word in plan {
        let taken = match parts(word) {
            Some((client, step)) if formed => {
                let has_right = client < count && rights::allows(lent, client, step);
                source.step_with(has_right, client, step)
            }
            _ => Taken::Forbidden,
        };
        refusals += u64::from(!matches!(taken, Taken::Accepted(_)));
        at_limit += u64::from(matches!(taken, Taken::Limit(10 | 13)));
    }
    let (entries, ledgers) = (source.next_entry_id - before.0, source.md_next_lid - before.1);
    (Counts { entries, ledgers, refusals }, at_limit)
}

/// What the values of some words come to. In a history that has at most 64 bits.
fn sum_of(words: &[u64]) -> u64 {
    words.iter().map(|word| word & ((1 << 52) - 1)).sum()
}

/// The first start of a stretch of a reading whose values come to more than the limit.
fn first_over(reading: &[u64], length: usize, limit: u64) -> Option<usize> {
    let over = |start: &usize| sum_of(&reading[*start..start + length]) > limit;
    (0..(reading.len() + 1).saturating_sub(length)).find(over)
}

/// What a history shows, if it fails.
fn failure(subject: Subject, client_count: u64, capacity: usize, turns: &[Turn]) -> Option<String> {
    let mut sides = Sides::new(subject);
    let mut run = match Run::start(&mut sides, client_count, capacity) {
        Ok(run) => run,
        Err(text) => return Some(text),
    };
    turns.iter().find_map(|turn| run.take(turn).err())
}

/// A plan in a line.
fn describe_plan(plan: &[u64]) -> String {
    let words: Vec<String> = plan.iter().map(|word| format!("{word:#018x}")).collect();
    format!("the plan [{}]", words.join(", "))
}

/// Rights in a line: how many words, and those that aren't zero.
fn describe(rights: &[u64]) -> String {
    let set = rights.iter().enumerate().filter(|(_, word)| **word != 0);
    let words: Vec<String> = set.map(|(client, word)| format!("{client}: {word:#018x}")).collect();
    format!("{} words of rights [{}]", rights.len(), words.join(", "))
}

/// The turn with plainer rights that still fails: with all of them, or else with no more words than it takes.
fn with_plainer_rights(mut turn: Turn, all: Vec<u64>, fails: impl Fn(Turn) -> bool) -> Turn {
    let with_all = Turn { rights: all, ..turn.clone() };
    if !turn.rights.is_empty() && fails(with_all.clone()) {
        return with_all;
    }
    for word in 0..turn.rights.len() {
        let kept = std::mem::take(&mut turn.rights[word]);
        if !fails(turn.clone()) {
            turn.rights[word] = kept;
        }
    }
    turn
}

fn report(subject: Subject, history: &History, text: String) -> String {
    let capacity = history.capacity;
    let fails = |turns: &[Turn]| failure(subject, history.client_count, capacity, turns).is_some();
    let mut turns = shorten(&history.turns, fails);
    for index in 0..turns.len() {
        let fails_with = |turn: Turn| fails(&[&turns[..index], &[turn], &turns[index + 1..]].concat());
        let mut turn = turns[index].clone();
        turn.call = with_fewer_scores(turn.call, |call| fails_with(Turn { call, ..turn.clone() }));
        turn.plan = shorten(&turn.plan, |plan| fails_with(Turn { plan: plan.to_vec(), ..turn.clone() }));
        turns[index] = with_plainer_rights(turn, rights::all(history.client_count), fails_with);
    }
    let fewest = (1..history.client_count).find(|&count| failure(subject, count, capacity, &turns).is_some());
    let client_count = fewest.unwrap_or(history.client_count);
    let text = failure(subject, client_count, capacity, &turns).unwrap_or(text);
    let start = format!("Fresh({client_count}) on {capacity} entry words");
    let mut report = format!("{text}The shortest history found that shows it:\n  {start}\n");
    for Turn { call, rights, plan } in turns {
        let _ = match call {
            Call::StepWith(..) => writeln!(report, "  {call} under {}", describe(&rights)),
            call if takes_plan(call) => {
                writeln!(report, "  {call} of {} under {}", describe_plan(&plan), describe(&rights))
            }
            _ => writeln!(report, "  {call}"),
        };
    }
    report
}
