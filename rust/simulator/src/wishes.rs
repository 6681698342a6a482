//! What controllers are asked for: mostly the next step of their client, and sometimes any step.

use crate::change::Change;
use crate::replica::Replica;
use cindrolf::{Kind, MarkName, Step};
use model::lists;
use model::random::Random;

/// The most steps of a request.
const MOST_STEPS: u64 = 6;

/// The steps of a request of a client. A value that is written is `first` or a little more, so that no two are the same.
pub fn wish(random: &mut Random, replica: &Replica, client: u64, clients: u64, first: u64) -> Vec<Change> {
    let own = |step| vec![Change::Step(client, step)];
    match random.below(100) {
        0..55 => next(random, replica, client, first),
        55..70 => own(Step::NAME),
        70..76 => lead(client),
        76..80 => vec![Change::SetMark(mark(random)), Change::DropMark(mark(random))],
        80..84 => vec![Change::SetMark(mark(random))],
        84..90 => vec![Change::SetRights(random.below(clients + 1), rights(random))],
        90..93 => vec![Change::WriteScores(client, lists::any_scores(random))],
        _ => (0..random.between(1, MOST_STEPS)).map(|at| any(random, clients, first + at)).collect(),
    }
}

/// What the adviser says, and several writes where it says to write. A client that is told nothing is named.
fn next(random: &mut Random, replica: &Replica, client: u64, first: u64) -> Vec<Change> {
    let kind = replica.log().advise(client).ok().flatten().unwrap_or(Kind::Name);
    let count = if kind == Kind::Write { random.between(1, MOST_STEPS) } else { 1 };
    (0..count).map(|at| Change::Step(client, Step::new(kind, first + at))).collect()
}

/// All that a new leader does until it may write.
fn lead(client: u64) -> Vec<Change> {
    [Step::NAME, Step::BECOME, Step::FETCH, Step::CLOSE_LAST, Step::FINISH, Step::CREATE, Step::APPEND]
        .map(|step| Change::Step(client, step))
        .to_vec()
}

fn any(random: &mut Random, clients: u64, value: u64) -> Change {
    let client = random.below(clients + 1);
    Change::Step(client, Step::new(random.pick(&Kind::ALL), value))
}

fn mark(random: &mut Random) -> MarkName {
    MarkName([random.pick(b"abc"), 0, 0, 0, 0, 0, 0, 0])
}

/// All rights, or all but one; or a bit that no client has.
fn rights(random: &mut Random) -> u64 {
    let ten = 0x3FF << 54;
    match random.below(8) {
        0 => ten | 1,
        1..4 => ten & !(1 << (54 + random.below(10))),
        _ => ten,
    }
}
