//! Random histories that make progress: clients mostly take their next step, and stale leaders go on for a while.

use crate::Step;
use crate::lists::any_scores;
use crate::random::Random;
use crate::source::{Source, Status};

/// How a history goes, in percent.
#[derive(Clone, Copy, Debug)]
pub struct Profile {
    /// How often a step is the one that comes next for its client.
    pub sensible: u64,
    /// How often that client is the named leader.
    pub by_leader: u64,
    /// How often a sensible step names another leader.
    pub renames: u64,
    /// How often a client that can write does so; otherwise it closes its ledger.
    pub writes: u64,
}

impl Profile {
    /// A few kinds of history: short leads, many ledgers, many entries, anything.
    pub const ALL: [Profile; 5] = [
        Profile { sensible: 90, by_leader: 60, renames: 10, writes: 60 },
        Profile { sensible: 99, by_leader: 95, renames: 3, writes: 50 },
        Profile { sensible: 99, by_leader: 97, renames: 0, writes: 99 },
        Profile { sensible: 95, by_leader: 30, renames: 4, writes: 90 },
        Profile { sensible: 20, by_leader: 50, renames: 20, writes: 70 },
    ];

    /// The next step of a history that has come to this state, and its client.
    pub fn next(&self, random: &mut Random, log: &Source) -> (u64, Step) {
        let count = log.c_state.len() as u64;
        if !random.chance(self.sensible) {
            return (any_client(random, count), any_step(random));
        }
        if random.chance(self.renames) {
            return (random.below(count), Step::Name);
        }
        let client = if random.chance(self.by_leader) { log.md_leader } else { random.below(count) };
        (client, self.sensible_step(random, log, client))
    }

    fn sensible_step(&self, random: &mut Random, log: &Source, client: u64) -> Step {
        let stale = log.md_leader != client;
        match log.c_state[client as usize].status {
            Status::Waiting if stale => random.pick(&[Step::Become, Step::Fetch, Step::Write(0)]),
            Status::Waiting => Step::Become,
            _ if stale && random.chance(5) => Step::Abdicate,
            Status::GetMdForClosing => Step::Fetch,
            Status::CloseLastLedger => Step::CloseLast,
            Status::FinishLastLedger => Step::Finish,
            Status::PendingCreateLedger => Step::Create,
            Status::PendingAppendLedger => Step::Append,
            Status::HasOpenLedger if random.chance(self.writes) => any_write(random),
            Status::HasOpenLedger => Step::CloseOwn,
        }
    }
}

/// A client number, mostly below the count.
pub fn any_client(random: &mut Random, count: u64) -> u64 {
    match random.below(20) {
        0 => count,
        1 => random.pick(&[15, 16, 255, 256, 1 << 32, u64::MAX, count + (1 << 32)]),
        2 => random.word(),
        _ => random.below(count.max(1)),
    }
}

/// A value, mostly one that fits.
pub fn any_value(random: &mut Random) -> u64 {
    match random.below(40) {
        0 => random.pick(&[1 << 52, (1 << 52) + 1, 1 << 56, u64::MAX]),
        1 => random.word(),
        2 => random.pick(&[0, (1 << 52) - 1]),
        _ => random.word() >> 12,
    }
}

/// A write, one in eight of scores.
fn any_write(random: &mut Random) -> Step {
    match random.below(8) {
        0 => Step::WriteScores(any_scores(random)),
        _ => Step::Write(any_value(random)),
    }
}

/// One of the steps.
pub fn any_step(random: &mut Random) -> Step {
    let step = random.pick(&Step::ALL);
    with_any_input(random, step)
}

/// The same kind of step, a write with any value or any scores.
pub fn with_any_input(random: &mut Random, step: Step) -> Step {
    match step {
        Step::Write(_) => Step::Write(any_value(random)),
        Step::WriteScores(_) => Step::WriteScores(any_scores(random)),
        step => step,
    }
}
