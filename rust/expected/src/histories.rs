//! What the program `histories` must print: how often each step gave each answer, over pseudo-random histories.
//!
//! Three numbers are drawn for each step, for its client, its kind and its value, by Marsaglia's xorshift64 from one
//! seed. Each function below says which bits decide.

use crate::log::Log;
use model::source::{Source, Status};
use model::{Answer, Step};
use std::fmt::Write;
use std::mem::discriminant;

const SEED: u64 = 88_172_645_463_325_252;

/// The words of both buffers.
const WORDS: u64 = 527 + 4096;

/// A kind of histories. The last five are how many draws of 64 do so.
struct Kind {
    name: &'static str,
    histories: u64,
    steps: u64,
    /// Take any step.
    any: u64,
    /// Are by the named leader.
    named: u64,
    /// Name the client.
    handover: u64,
    /// Let a leader abdicate that is no longer named.
    abdicate: u64,
    /// Close the own ledger in place of a write.
    close_own: u64,
}

const fn kind(name: &'static str, histories: u64, steps: u64, of_64: [u64; 5]) -> Kind {
    let [any, named, handover, abdicate, close_own] = of_64;
    Kind { name, histories, steps, any, named, handover, abdicate, close_own }
}

const KINDS: [Kind; 5] = [
    kind("any steps", 64, 200, [64, 0, 0, 0, 0]),
    kind("fitting", 160, 400, [8, 8, 0, 4, 16]),
    kind("handovers", 64, 400, [4, 24, 12, 16, 8]),
    kind("last ledger", 16, 2000, [2, 48, 0, 2, 32]),
    kind("last entry", 8, 5600, [1, 61, 0, 16, 1]),
];

/// The steps that are drawn, in the program's order. No list of scores is.
const STEPS: [(&str, Step); 10] = [
    ("name", Step::Name),
    ("become", Step::Become),
    ("abdicate", Step::Abdicate),
    ("fetch", Step::Fetch),
    ("close last", Step::CloseLast),
    ("finish", Step::Finish),
    ("create", Step::Create),
    ("append", Step::Append),
    ("write", Step::Write(0)),
    ("close own", Step::CloseOwn),
];

/// The number after this one.
fn following(mut x: u64) -> u64 {
    x ^= x << 13;
    x ^= x >> 7;
    x ^ (x << 17)
}

/// Whether six bits of a number, those above the first few, fall below a share of 64.
fn falls(r: u64, above: u32, share: u64) -> bool {
    (r >> above) % 64 < share
}

fn draw_client(log: &Source, kind: &Kind, r: u64) -> u64 {
    let count = log.c_state.len() as u64;
    if r.is_multiple_of(64) {
        return [count, 255, 1 << 32, u64::MAX][(r >> 6) as usize % 4];
    }
    if falls(r, 8, kind.named) { log.md_leader } else { (r >> 16) % count }
}

/// A write is drawn without its value.
fn draw_step(log: &Source, kind: &Kind, client: u64, r: u64) -> Step {
    let Some(state) = log.c_state.get(client as usize).filter(|_| !falls(r, 0, kind.any)) else {
        return STEPS[(r >> 6) as usize % STEPS.len()].1;
    };
    let named = log.md_leader == client;
    if falls(r, 10, kind.handover) || (!state.leader && !named) {
        return Step::Name;
    }
    if state.leader && !named && falls(r, 16, kind.abdicate) {
        return Step::Abdicate;
    }
    match state.status {
        Status::Waiting => Step::Become,
        Status::GetMdForClosing => Step::Fetch,
        Status::CloseLastLedger => Step::CloseLast,
        Status::FinishLastLedger => Step::Finish,
        Status::PendingCreateLedger => Step::Create,
        Status::PendingAppendLedger => Step::Append,
        Status::HasOpenLedger if falls(r, 22, kind.close_own) => Step::CloseOwn,
        Status::HasOpenLedger => Step::Write(0),
    }
}

fn draw_value(r: u64) -> u64 {
    match r % 32 {
        0 => (1 << 52) - 1,
        1 => 1 << 52,
        2 => u64::MAX,
        3 => r,
        4..16 => (r >> 5) % 16,
        _ => r >> 12,
    }
}

/// How often each answer was given: done, was closed, behind, written, then the refusals by number.
type Counts = [u64; 22];

fn index(answer: Answer) -> usize {
    match answer {
        Answer::Done => 0,
        Answer::WasClosed => 1,
        Answer::Behind => 2,
        Answer::Entry { .. } => 3,
        Answer::Refused(number) => 4 + number as usize,
    }
}

/// A step's place among them.
fn place(step: Step) -> usize {
    let same = |(_, other): &(_, Step)| discriminant(other) == discriminant(&step);
    STEPS.iter().position(same).expect("it was drawn")
}

#[derive(Default)]
struct Tally {
    histories: u64,
    steps: u64,
    chain_words: u64,
    ledgers: u64,
    one_by_one: u64,
    unlisted: u64,
    /// By kind of step.
    answers: [Counts; STEPS.len()],
    /// In how many histories an answer was met.
    met: Counts,
}

impl Tally {
    /// Draws a history from this number on; the answer is the number from which the next is drawn.
    fn history(&mut self, kind: &Kind, mut r: u64) -> u64 {
        let mut log = Log::fresh(self.histories * 5 % 16 + 1);
        let mut met = Counts::default();
        for _ in 0..kind.steps {
            let (for_client, for_step) = (following(r), following(following(r)));
            r = following(for_step);
            let client = draw_client(log.source(), kind, for_client);
            let step = match draw_step(log.source(), kind, client, for_step) {
                Step::Write(_) => Step::Write(draw_value(r)),
                step => step,
            };
            let answer = index(log.step(client, step));
            self.answers[place(step)][answer] += 1;
            met[answer] = 1;
        }
        self.met.iter_mut().zip(met).for_each(|(sum, met)| *sum += met);
        self.histories += 1;
        self.steps += kind.steps;
        self.readings(&log);
        r
    }

    /// Reads the chain, and every ledger number up to the next.
    fn readings(&mut self, log: &Log) {
        self.chain_words += log.chain().len() as u64;
        for ledger in 0..=log.source().md_next_lid {
            self.ledgers += 1;
            match log.ledger_values(ledger) {
                Some(values) => self.one_by_one += values.len() as u64,
                None => self.unlisted += 1,
            }
        }
    }
}

fn line(text: &mut String, name: &str, value: impl std::fmt::Display) {
    let _ = writeln!(text, "{name:<12}{value}");
}

fn answers(counts: &Counts) -> String {
    let mut text = String::new();
    for (index, &count) in counts.iter().enumerate().filter(|&(_, &count)| count > 0) {
        let name = ["done", "was closed", "behind", "written"].get(index);
        let name = name.map_or_else(|| format!("refused by {}", index - 4), |name| name.to_string());
        let _ = write!(text, "  {count} {name}");
    }
    text
}

/// All that the program prints.
pub fn counts() -> String {
    let (mut tally, mut r) = (Tally::default(), SEED);
    for kind in &KINDS {
        for _ in 0..kind.histories {
            r = tally.history(kind, r);
        }
    }
    let mut text = String::from(
        "the log against a model of LedgerChaining: every answer, every word of the buffers after every step, and every \
         reading\n",
    );
    line(&mut text, "seed", SEED);
    line(&mut text, "histories", tally.histories);
    line(&mut text, "steps", tally.steps);
    line(&mut text, "words", (tally.histories + tally.steps) * WORDS);
    line(&mut text, "chain words", tally.chain_words);
    line(&mut text, "ledgers", tally.ledgers);
    line(&mut text, "one by one", tally.one_by_one);
    line(&mut text, "unlisted", tally.unlisted);
    for kind in &KINDS {
        line(&mut text, kind.name, format!("{} histories, steps of each {}", kind.histories, kind.steps));
    }
    for ((name, _), counts) in STEPS.iter().zip(&tally.answers) {
        line(&mut text, name, answers(counts));
    }
    line(&mut text, "by history", answers(&tally.met));
    text + "no difference\n"
}
