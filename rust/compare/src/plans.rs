//! Plans of any kind: what comes next for the clients of a log, in a row, with other words among it, and words of any kind.

use crate::call::Buffers;
use model::Step;
use model::histories::{Profile, any_client, any_step, any_value};
use model::layout::{Client, Head, client_index};
use model::plans::word;
use model::random::Random;
use model::rights::{self, RIGHTS_WORDS};
use model::source::Source;

/// What a client does in a row that goes on and on: from each stage at its own place, and again from the last create.
const ONWARD: [Step; 12] = [
    Step::Become,
    Step::Fetch,
    Step::CloseLast,
    Step::Finish,
    Step::Create,
    Step::Append,
    Step::Write(0),
    Step::Write(0),
    Step::CloseOwn,
    Step::Create,
    Step::Append,
    Step::Write(0),
];

/// Where a client at this stage goes on.
fn onward(stage: u64) -> &'static [Step] {
    match stage {
        0..=2 => &ONWARD[stage as usize..],
        6 => &ONWARD[3..],
        3 => &ONWARD[4..],
        4 => &ONWARD[5..],
        _ => &ONWARD[6..],
    }
}

/// A plan for the log that these buffers may hold, of up to 12 words.
pub fn any_plan(random: &mut Random, buffers: &Buffers) -> Vec<u64> {
    let length = random.pick(&[0, 1, 3, 7, 12]);
    match random.below(8) {
        0 => return (0..length).map(|_| random.word()).collect(),
        1 => return (0..length).map(|_| unknown_step(random)).collect(),
        _ => {}
    }
    let head = Head::load(buffers.state.first().copied().unwrap_or(0)).0;
    let mut plan = vec![];
    while plan.len() < length {
        let client = if random.chance(70) { head.leader } else { any_client(random, head.client_count) };
        let kept = if client < 16 { buffers.state.get(client_index(client)) } else { None };
        let steps = onward(Client::load(kept.copied().unwrap_or(0)).0.stage);
        let count = if random.chance(60) { steps.len() } else { random.between(1, steps.len() as u64) as usize };
        plan.extend(steps[..count].iter().map(|&step| planned(random, client, step)));
    }
    plan.truncate(length);
    for word in &mut plan {
        if random.chance(6) {
            *word = other_word(random, head.client_count);
        }
    }
    plan
}

/// A plan of so many words as a history of this profile goes on, each step under these rights, with other words among it.
pub fn sensible_plan(
    random: &mut Random,
    profile: &Profile,
    source: &Source,
    rights: &[u64],
    length: usize,
) -> Vec<u64> {
    let mut source = source.clone();
    let count = source.c_state.len() as u64;
    let lent = rights.len() == RIGHTS_WORDS && rights::well_formed(rights, count);
    let mut plan = vec![];
    for _ in 0..length {
        if random.chance(5) {
            plan.push(other_word(random, count));
            continue;
        }
        let (client, step) = profile.next(random, &source);
        if lent {
            source.step_with(client < count && rights::allows(rights, client, step), client, step);
        }
        plan.push(planned(random, client, step));
    }
    plan
}

/// The step's word. Of a client or a value that has no room the lowest bits are taken, and scores become a value. Now and then a step that
/// is no write has a value too, which plays no part.
fn planned(random: &mut Random, client: u64, step: Step) -> u64 {
    let step = match step {
        Step::Write(_) | Step::WriteScores(_) => Step::Write(any_value(random) % (1 << 52)),
        step => step,
    };
    let ignored = if matches!(step, Step::Write(_)) || random.chance(80) { 0 } else { random.word() >> 12 };
    word(client & 255, step).expect("it has room") | ignored
}

fn other_word(random: &mut Random, client_count: u64) -> u64 {
    let (client, step) = (any_client(random, client_count), any_step(random));
    match random.below(3) {
        0 => random.word(),
        1 => unknown_step(random),
        _ => planned(random, client, step),
    }
}

fn unknown_step(random: &mut Random) -> u64 {
    let rest = if random.chance(50) { random.word() >> 4 } else { 0 };
    random.between(10, 15) << 60 | rest
}

/// A budget for a plan of this length: none, less, just enough, or more.
pub fn any_budget(random: &mut Random, length: usize) -> u64 {
    let length = length as u64;
    match random.below(10) {
        0 => 0,
        1..=3 => random.below(length.max(1)),
        4..=6 => length,
        7 => length + 1,
        _ => random.pick(&[u64::MAX, 1 << 32, (1 << 32) + 1, 1 << 63]),
    }
}

#[cfg(test)]
mod tests {
    use super::*;
    use crate::buffers::any_buffers;
    use model::plans::{Counts, forecast, parts};

    // What the comparisons rest on: plans that add something, that are refused, of every step and of none; budgets of every size.
    #[test]
    fn plans_of_every_kind() {
        let mut random = Random::new(7);
        let (mut numbers, mut sums, mut cut) = ([0; 16], Counts::default(), 0);
        for _ in 0..2_000 {
            let buffers = any_buffers(&mut random);
            let plan = any_plan(&mut random, &buffers);
            let budget = any_budget(&mut random, plan.len());
            cut += u64::from(budget < plan.len() as u64);
            plan.iter().for_each(|word| numbers[(word >> 60) as usize] += 1);
            let count = Head::load(buffers.state.first().copied().unwrap_or(0)).0.client_count;
            let counts = forecast(&buffers.state, &buffers.entries, &rights::all(count), &plan, budget);
            sums.entries += counts.entries;
            sums.ledgers += counts.ledgers;
            sums.refusals += counts.refusals;
        }
        assert!(numbers.iter().all(|&met| met > 50), "{numbers:?}");
        assert!(cut > 100 && sums.entries > 40 && sums.ledgers > 60 && sums.refusals > 1_000, "{cut} {sums:?}");
        let budgets: Vec<u64> = (0..200).map(|_| any_budget(&mut random, 5)).collect();
        for budget in [0, 3, 5, 6, u64::MAX] {
            assert!(budgets.contains(&budget), "{budget}");
        }
    }

    #[test]
    fn plans_as_histories_go() {
        let (mut random, profile) = (Random::new(8), Profile::ALL[2]);
        let plan = sensible_plan(&mut random, &profile, &Source::init(3), &rights::all(3), 300);
        let writes = plan.iter().filter(|&&word| matches!(parts(word), Some((0, Step::Write(_))))).count();
        assert_eq!(plan.len(), 300);
        assert!(writes > 200, "{writes}");
    }
}
