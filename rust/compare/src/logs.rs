//! The logs whose every single-bit change every run tries.

use crate::call::{Buffers, Call};
use model::layout::{ENTRY_WORDS, Head, SMALL_ENTRY_WORDS, STATE_WORDS};
use model::marks::{self, LIMIT, MARK_WORDS, Mark};
use model::{Answer, Step, rights, words};

/// A log, and the step that is tried on each change of it.
pub struct Named {
    /// What it is.
    pub name: String,
    /// The log.
    pub buffers: Buffers,
    /// A step that it accepts.
    pub step: Call,
}

/// A fresh log of so many clients, with no mark and with all rights.
pub fn fresh(client_count: u64) -> Buffers {
    fresh_with(client_count, ENTRY_WORDS)
}

/// The same, with room for so many entries.
pub fn fresh_with(client_count: u64, capacity: usize) -> Buffers {
    let (mut state, mut entries) = (vec![0; STATE_WORDS], vec![0; capacity]);
    assert_eq!(words::fresh(&mut state, &mut entries, client_count), Answer::Done);
    let (marks, rights) = (vec![0; MARK_WORDS], rights::all(client_count));
    Buffers { state, entries, marks, rights, ..Buffers::default() }
}

/// The log with so many marks, whose names are 1, 2 and so on, spread over its entries.
pub fn marked(mut log: Buffers, count: u64) -> Buffers {
    let entry_count = Head::load(log.state[0]).0.entry_count;
    let at = |name: u64| Mark { name, count: entry_count * name / count };
    log.marks = marks::buffer(&(1..=count).map(at).collect::<Vec<_>>());
    log
}

/// Takes steps of the model, none of which may be refused.
pub fn take(log: &mut Buffers, client: u64, steps: &[Step]) {
    for &step in steps {
        let answer = words::step(&mut log.state, &mut log.entries, client, step);
        assert!(!matches!(answer, Answer::Refused(_)), "{client} {step:?}: {answer:?}");
    }
}

/// By these steps the first client gets to write in a fresh log.
pub const LEAD: [Step; 4] = [Step::Become, Step::Fetch, Step::Create, Step::Append];

fn one_ledger() -> Buffers {
    let mut log = fresh(2);
    take(&mut log, 0, &LEAD);
    take(&mut log, 0, &[Step::Write(7), Step::Write((1 << 52) - 1)]);
    log
}

/// Client 1 has fetched, and client 0 still writes.
fn handover() -> Buffers {
    let mut log = one_ledger();
    take(&mut log, 1, &[Step::Name, Step::Become, Step::Fetch]);
    log
}

/// A log of this many ledgers, each but the last closed by its owner, with this many entries spread over them.
pub fn chain(client_count: u64, ledgers: u64, entries: u64) -> Buffers {
    chain_from(fresh(client_count), ledgers, entries)
}

/// A fresh log with so many ledgers and entries.
pub fn chain_from(mut log: Buffers, ledgers: u64, entries: u64) -> Buffers {
    take(&mut log, 0, &[Step::Become, Step::Fetch]);
    let mut written = 0;
    for ledger in 1..=ledgers {
        take(&mut log, 0, &[Step::Create, Step::Append]);
        while written < entries * ledger / ledgers {
            take(&mut log, 0, &[Step::Write(written * 0x1_0001)]);
            written += 1;
        }
        if ledger < ledgers {
            take(&mut log, 0, &[Step::CloseOwn]);
        }
    }
    log
}

/// Fresh, one ledger, mid-handover and full; with no mark, one, three and as many as there may be, and with all rights. Then one that is
/// full with 512 entries.
pub fn all() -> Vec<Named> {
    let full = chain(16, 255, ENTRY_WORDS as u64);
    let small = chain_from(fresh_with(2, SMALL_ENTRY_WORDS), 3, SMALL_ENTRY_WORDS as u64);
    let named =
        |name: &str, buffers, client, step| Named { name: name.into(), buffers, step: Call::Step(client, step) };
    vec![
        named("fresh", fresh(3), 0, Step::Become),
        named("one ledger", marked(one_ledger(), 1), 0, Step::Write(9)),
        named("mid-handover", marked(handover(), 3), 1, Step::CloseLast),
        named("full", marked(full, LIMIT as u64), 0, Step::CloseOwn),
        named("small and full", marked(small, 2), 0, Step::CloseOwn),
    ]
}
