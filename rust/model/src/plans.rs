//! Plans: steps as words, run one after the other up to a budget, and what such a run would add, as in the reference.

use crate::{Answer, Step, words};

/// Where a word has its parts: step 4 bits, client 8, value 52, from the most significant.
const STEP: u32 = 60;
const CLIENT: u32 = 52;

/// What a run adds.
#[derive(Clone, Copy, Debug, Default, PartialEq, Eq)]
pub struct Counts {
    /// Entries.
    pub entries: u64,
    /// Ledger numbers.
    pub ledgers: u64,
    /// Steps that were refused.
    pub refusals: u64,
}

/// The word of a step by a client, as far as there is room for them. Scores have no word.
pub fn word(client: u64, step: Step) -> Option<u64> {
    let (number, value) = match step {
        Step::Name => (0, 0),
        Step::Become => (1, 0),
        Step::Abdicate => (2, 0),
        Step::Fetch => (3, 0),
        Step::CloseLast => (4, 0),
        Step::Finish => (5, 0),
        Step::Create => (6, 0),
        Step::Append => (7, 0),
        Step::Write(value) => (8, value),
        Step::CloseOwn => (9, 0),
        Step::WriteScores(_) => return None,
    };
    (client < 1 << 8 && value < 1 << CLIENT).then_some((number << STEP) | (client << CLIENT) | value)
}

/// The step of a number, in the reference's order, with this value if it is a write.
pub fn step(number: u64, value: u64) -> Option<Step> {
    Some(match number {
        0 => Step::Name,
        1 => Step::Become,
        2 => Step::Abdicate,
        3 => Step::Fetch,
        4 => Step::CloseLast,
        5 => Step::Finish,
        6 => Step::Create,
        7 => Step::Append,
        8 => Step::Write(value),
        9 => Step::CloseOwn,
        _ => return None,
    })
}

/// The client and the step of a word, if its number is that of a step.
pub fn parts(word: u64) -> Option<(u64, Step)> {
    Some((word >> CLIENT & 0xFF, step(word >> STEP, word % (1 << CLIENT))?))
}

/// What one word of a plan answers: 25 before anything else, or what its step answers.
pub fn take(state: &mut [u64], entries: &mut [u64], rights: &[u64], word: u64) -> Answer {
    match parts(word) {
        None => Answer::Refused(25),
        Some((client, step)) => words::step_with(state, entries, rights, client, step),
    }
}

/// The words of a plan that a run takes.
pub fn within(plan: &[u64], budget: u64) -> &[u64] {
    &plan[..budget.min(plan.len() as u64) as usize]
}

/// A run: how many steps it took.
pub fn run(state: &mut [u64], entries: &mut [u64], rights: &[u64], plan: &[u64], budget: u64) -> u64 {
    let mut taken = 0;
    for &word in within(plan, budget) {
        take(state, entries, rights, word);
        taken += 1;
    }
    taken
}

/// What a run would add, by taking it on copies.
pub fn forecast(state: &[u64], entries: &[u64], rights: &[u64], plan: &[u64], budget: u64) -> Counts {
    let (mut state, mut entries) = (state.to_vec(), entries.to_vec());
    let mut counts = Counts::default();
    for &word in within(plan, budget) {
        let answer = take(&mut state, &mut entries, rights, word);
        counts.add(parts(word).map(|(_, step)| step), answer);
    }
    counts
}

impl Counts {
    /// Counts the answer of a step, or of a word that names none.
    pub fn add(&mut self, step: Option<Step>, answer: Answer) {
        match (step, answer) {
            (_, Answer::Refused(_)) => self.refusals += 1,
            (_, Answer::Entry { .. }) => self.entries += 1,
            (Some(Step::Create), Answer::Done) => self.ledgers += 1,
            _ => {}
        }
    }
}
