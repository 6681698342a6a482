//! Random plans for logs.

use cindrolf::Kind::{Abdicate, Append, Become, CloseLast, CloseOwn, Create, Fetch, Finish, Name, Write};
use cindrolf::{Step, StepWord, VALUE_LIMIT};
use model::random::Random;

/// Random steps: some that lead to writes, broken off at any place, and others in between.
pub fn random_plan(random: &mut Random, clients: u64, count: usize) -> Vec<StepWord> {
    let lead = [Name, Become, Fetch, CloseLast, Finish, Create, Append, Write, Write, CloseOwn, Create, Append];
    let mut plan = Vec::new();
    while plan.len() < count {
        let (client, length) = (random.below(clients), random.between(1, lead.len() as u64));
        for &kind in &lead[..length as usize] {
            let value = if random.chance(20) { VALUE_LIMIT } else { random.below(1 << 40) };
            plan.push(StepWord::new(client, Step::new(kind, value)).expect("a step of a client"));
            if random.chance(10) {
                let (client, kind) = (random.below(clients), random.pick(&[Abdicate, Write, CloseOwn]));
                plan.push(StepWord::new(client, Step::new(kind, value)).expect("a step of a client"));
            }
        }
    }
    plan.truncate(count);
    plan
}
