//! Every single-bit change of a log, on the check and on a step, of its marks, on the calls that take them, and of rights, on every
//! step; and the log as it is, on every operation.

use crate::call::{Buffers, Call, Lent, Outcome, Subject};
use crate::logs::Named;
use crate::shrink;
use crate::sides::Sides;
use model::layout::ENTRY_WORDS;
use model::marks::{LIMIT, MARK_WORDS};
use model::rights::RIGHTS_WORDS;
use model::{Step, plans};
use std::ops::Range;

/// Compares every operation on the undamaged log.
pub fn undamaged(subject: Subject, sides: &mut Sides, log: &Named) -> Result<(), String> {
    let mut buffers = log.buffers.clone();
    buffers.output = vec![3; ENTRY_WORDS];
    buffers.plan = every_step();
    let budgets = [0, 1, buffers.plan.len() as u64, u64::MAX];
    let runs = budgets.into_iter().flat_map(|budget| [Call::Forecast(budget), Call::RunPlan(budget)]);
    let without = (0..17).flat_map(|client| Step::ALL.map(|step| Call::Step(client, step)));
    let steps = without.chain((0..17).flat_map(|client| Step::ALL.map(|step| Call::StepWith(client, step))));
    let numbers = || (0..11).chain([15, 16, 255, 256, 264, 1 << 32, (1 << 32) + 8, u64::MAX]);
    let given = || (0..17).flat_map(move |client| [7, 1 << 52].map(|value| (client, value)));
    let takes = numbers().flat_map(move |number| {
        given().flat_map(move |(client, value)| [Call::Take, Call::TakeWith].map(|take| take(number, client, value)))
    });
    let windows = [(0, 0), (1, 0), (1, u64::MAX), (256, 0), (256, 1 << 40), (257, 0), (u64::MAX, 0)];
    let windows = windows.map(|(length, limit)| Call::FirstWindow(length, limit));
    let advice = (0..17).map(Call::Advise);
    let readers = [Call::WellFormed, Call::ReadChain, Call::ReadLedger(1), Call::ReadLedger(255), Call::RunTotal];
    let listed = [0, 1, 2, 254, 255, 256, 257, 1 << 32, u64::MAX];
    let listed = listed.into_iter().flat_map(|number| [Call::LedgerAt(number), Call::LedgerSum(number)]);
    let others = readers
        .into_iter()
        .chain(listed)
        .chain(windows)
        .chain(advice)
        .chain([Call::Fresh(4)])
        .chain(ON_MARKS)
        .chain(runs);
    for call in steps.chain(takes).chain(others) {
        sides.set(&buffers);
        match sides.call(call) {
            Ok(Outcome::WellFormed(false)) => return Err(format!("the log '{}' is not well formed\n", log.name)),
            Ok(_) => {}
            Err(_) => return Err(report(subject, call, &buffers, log, "undamaged")),
        }
    }
    Ok(())
}

/// A plan with each step by each of 17 clients, in turn, and with each number that is no step.
fn every_step() -> Vec<u64> {
    let steps = (0..17).flat_map(|client| Step::ALL.map(|step| plans::word(client, step)));
    steps.flatten().chain((10..16).map(|number| number << 60)).collect()
}

/// Compares the check and the log's step on the log with each of these bits changed, one at a time. Bit 64 × i + j is
/// bit j of word i, where the entry words come after those of the state. Says how many changes these were.
pub fn changes(subject: Subject, sides: &mut Sides, log: &Named, bits: Range<usize>) -> Result<u64, String> {
    each_change(subject, sides, log, &log.buffers, &[Call::WellFormed, log.step], bits)
}

/// Compares the calls on marks with each bit of the marks buffer changed, one at a time. Says how many changes these were.
pub fn mark_changes(subject: Subject, sides: &mut Sides, log: &Named) -> Result<u64, String> {
    let mut buffers = log.buffers.clone();
    buffers.output = vec![3; ENTRY_WORDS];
    let first = bits(log);
    each_change(subject, sides, log, &buffers, &ON_MARKS, first..first + 64 * MARK_WORDS)
}

/// Compares every step by the first two clients with each bit of the rights changed, one at a time: of all rights, so that one is missing
/// or one too many is set, and of none, so that there is just one. Says how many changes these were.
pub fn rights_changes(subject: Subject, sides: &mut Sides, log: &Named) -> Result<u64, String> {
    let calls: Vec<Call> = (0..2).flat_map(|client| Step::ALL.map(|step| Call::StepWith(client, step))).collect();
    let mut buffers = log.buffers.clone();
    let first = bits(log) + 64 * MARK_WORDS;
    let mut count = 0;
    for rights in [buffers.rights.clone(), vec![0; RIGHTS_WORDS]] {
        buffers.rights = rights;
        count += each_change(subject, sides, log, &buffers, &calls, first..first + 64 * RIGHTS_WORDS)?;
    }
    Ok(count)
}

/// The calls on marks: by the name of the first mark, by that of the last of 32, by one that no log here keeps, and by 0, which is one
/// change away from the first.
const ON_MARKS: [Call; 9] = [
    Call::SetMark(NEW),
    Call::SetMark(1),
    Call::SetMark(0),
    Call::DropMark(1),
    Call::DropMark(LIMIT as u64),
    Call::DropMark(0),
    Call::ReadMark(1),
    Call::ReadMark(LIMIT as u64),
    Call::ReadMark(0),
];

/// The name of a mark that no log here keeps.
const NEW: u64 = 1 << 63;

fn each_change(
    subject: Subject,
    sides: &mut Sides,
    log: &Named,
    buffers: &Buffers,
    calls: &[Call],
    bits: Range<usize>,
) -> Result<u64, String> {
    let mut count = 0;
    sides.set(buffers);
    for bit in bits {
        sides.edit(|lent| flip(lent, bit));
        for &call in calls {
            match sides.call(call) {
                Ok(outcome) if outcome.changes() => {
                    sides.set(buffers);
                    sides.edit(|lent| flip(lent, bit));
                }
                Ok(_) => {}
                Err(_) => {
                    let mut damaged = buffers.clone();
                    flip(&mut damaged.lend(), bit);
                    return Err(report(subject, call, &damaged, log, &describe_bit(buffers, bit)));
                }
            }
        }
        sides.edit(|lent| flip(lent, bit));
        count += 1;
    }
    Ok(count)
}

/// The number of bits of a log. Those of its marks stand behind them, and those of the rights behind these.
pub fn bits(log: &Named) -> usize {
    64 * (log.buffers.state.len() + log.buffers.entries.len())
}

/// Changes one bit.
pub fn flip(lent: &mut Lent, bit: usize) {
    let log = lent.state.iter_mut().chain(&mut *lent.entries);
    let word = log.chain(&mut *lent.marks).chain(&mut *lent.rights).nth(bit / 64);
    *word.expect("a bit of a buffer") ^= 1 << (bit % 64);
}

fn describe_bit(buffers: &Buffers, bit: usize) -> String {
    let mut index = bit / 64;
    for (name, words) in [("state", &buffers.state), ("entry", &buffers.entries), ("mark", &buffers.marks)] {
        if index < words.len() {
            return format!("with bit {} of {name} word {index} changed", bit % 64);
        }
        index -= words.len();
    }
    format!("with bit {} of rights word {index} changed", bit % 64)
}

fn report(subject: Subject, call: Call, buffers: &Buffers, log: &Named, how: &str) -> String {
    format!("The log '{}' {how}.\n{}", log.name, shrink::report(subject, call, buffers))
}
