//! The operations that are measured: each by the library at every placement, beside plain Rust.

use crate::measure::{Candidate, Row};
use crate::placed::Placed;
use crate::{checks, plans, storage, sums, windows};
use cindrolf::{calls, value_of};
use compare::call::Buffers;
use compare::logs::chain;
use model::layout::{Head, client_index, ledger_index};
use model::random::Random;
use model::{Step, words};
use std::cell::RefCell;
use std::hint::black_box;
use std::rc::Rc;

/// What the operations are done on.
pub struct Inputs {
    empty: Buffers,
    ledgers: Buffers,
    /// With room for one entry.
    nearly_full: Buffers,
    full: Buffers,
    one_ledger: Buffers,
    scores: Vec<u16>,
    parts: sums::Parts,
    plan: Vec<u64>,
    words: Vec<u64>,
    bytes: Vec<u8>,
}

impl Inputs {
    /// Makes them.
    pub fn new() -> Self {
        let (mut for_scores, mut for_words) = (Random::new(1), Random::new(2));
        let words: Vec<u64> = (0..4096).map(|_| for_words.word()).collect();
        Inputs {
            empty: chain(1, 1, 0),
            ledgers: chain(16, 255, 255),
            nearly_full: chain(16, 255, 4095),
            full: chain(16, 255, 4096),
            one_ledger: chain(16, 1, 4096),
            scores: (0..4_000).map(|_| for_scores.below(373) as u16).collect(),
            parts: sums::parts(),
            plan: (0..4_000).map(|value| (8 << 60) | (value * 0x1_0001)).collect(),
            bytes: words.iter().flat_map(|word| word.to_be_bytes()).collect(),
            words,
        }
    }
}

/// The same call by the library at each placement.
fn at_each<'a>(libraries: &'a [Placed], candidate: impl Fn(&'a Placed) -> Candidate<'a>) -> Vec<Candidate<'a>> {
    libraries.iter().map(candidate).collect()
}

/// A log that all candidates of a row change and put back. They share it, since where its words are matters too.
pub type Shared = Rc<RefCell<Buffers>>;

pub fn shared(log: &Buffers) -> Shared {
    Rc::new(RefCell::new(log.clone()))
}

/// Does a write by client 0 and undoes it, so that each write meets the same log.
pub fn write<'a, T>(
    name: &'static str,
    log: &Shared,
    write: impl Fn(&mut [u64], &mut [u64]) -> T + 'a,
) -> Candidate<'a> {
    let head = log.borrow().state[0];
    let count = (head >> 51) as usize;
    changing(name, log, move |log| {
        black_box(write(black_box(&mut log.state), black_box(&mut log.entries)));
        log.state[0] = head;
        log.entries[count] = 0;
    })
}

/// Closes the last ledger by client 0, whose it is, and undoes it.
fn close<'a, T>(name: &'static str, log: &Shared, close: impl Fn(&mut [u64], &mut [u64]) -> T + 'a) -> Candidate<'a> {
    let state = log.borrow().state.clone();
    let (client, ledger) = (client_index(0), ledger_index(Head::load(state[0]).0.next_ledger - 1));
    changing(name, log, move |log| {
        black_box(close(black_box(&mut log.state), black_box(&mut log.entries)));
        (log.state[client], log.state[ledger]) = (state[client], state[ledger]);
    })
}

/// A candidate on a shared log, which it takes once for all its calls in a row.
fn changing<'a>(name: &'static str, log: &Shared, mut once: impl FnMut(&mut Buffers) + 'a) -> Candidate<'a> {
    let log = log.clone();
    let run = move |times: u32| {
        let log = &mut *log.borrow_mut();
        (0..times).for_each(|_| once(log));
    };
    Candidate { name, run: Box::new(run) }
}

/// Looks at a log, and changes nothing.
pub fn look<'a, T>(name: &'static str, log: &'a Buffers, look: impl Fn(&[u64], &[u64]) -> T + 'a) -> Candidate<'a> {
    Candidate::new(name, move || {
        black_box(look(black_box(&log.state), black_box(&log.entries)));
    })
}

fn read<'a, T>(
    name: &'static str,
    log: &'a Buffers,
    read: impl Fn(&[u64], &[u64], &mut [u64]) -> T + 'a,
) -> Candidate<'a> {
    let mut output = vec![0; 4096];
    Candidate::new(name, move || {
        black_box(read(black_box(&log.state), black_box(&log.entries), black_box(&mut output)));
    })
}

/// Runs a plan of writes and undoes it, so that each run meets the same log.
fn run<'a, T>(
    name: &'static str,
    log: &Shared,
    plan: &'a [u64],
    run: impl Fn(&mut [u64], &mut [u64], &[u64]) -> T + 'a,
) -> Candidate<'a> {
    let head = log.borrow().state[0];
    let count = (head >> 51) as usize;
    changing(name, log, move |log| {
        black_box(run(black_box(&mut log.state), black_box(&mut log.entries), black_box(plan)));
        log.state[0] = head;
        log.entries[count..count + plan.len()].fill(0);
    })
}

fn writes<'a>(libraries: &'a [Placed], name: &'static str, log: &'a Buffers) -> Vec<Row<'a>> {
    assert!(calls::write(&mut log.state.clone(), &mut log.entries.clone(), 0, 7).is_ok());
    assert!(calls::write_with(&mut log.state.clone(), &mut log.entries.clone(), &log.rights, 0, 7).is_ok());
    let to_write = &shared(log);
    let others = vec![
        look("its check alone", log, |state, entries| libraries[0].well_formed(state, entries)),
        write("model", to_write, |state, entries| words::step(state, entries, 0, Step::Write(7))),
        write("idiomatic check", to_write, |state, entries| {
            if checks::idiomatic(state, entries) {
                checks::trusting_write(state, entries, 0, 7);
            }
        }),
        write("append, no check", to_write, |state, entries| checks::trusting_write(state, entries, 0, 7)),
    ];
    let plain =
        at_each(libraries, |library| write("library", to_write, |state, entries| library.write(state, entries, 7)));
    let under = at_each(libraries, |library| {
        write("library", to_write, |state, entries| library.write_with(state, entries, black_box(&log.rights), 7))
    });
    let without = vec![write("without rights", to_write, |state, entries| libraries[0].write(state, entries, 7))];
    vec![
        Row { log: name, operation: "write", placed: plain, less: vec![], others },
        Row { log: name, operation: "write under rights", placed: under, less: vec![], others: without },
    ]
}

fn closes<'a>(libraries: &'a [Placed], name: &'static str, log: &'a Buffers) -> Row<'a> {
    assert!(calls::close_own(&mut log.state.clone(), &mut log.entries.clone(), 0).is_ok());
    let to_close = &shared(log);
    Row {
        log: name,
        operation: "close own",
        placed: at_each(libraries, |library| {
            close("library", to_close, |state, entries| library.close_own(state, entries))
        }),
        less: vec![],
        others: vec![close("model", to_close, |state, entries| words::step(state, entries, 0, Step::CloseOwn))],
    }
}

fn all_checks<'a>(libraries: &'a [Placed], name: &'static str, log: &'a Buffers) -> Row<'a> {
    assert!(calls::well_formed(&log.state, &log.entries));
    Row {
        log: name,
        operation: "check",
        placed: at_each(libraries, |library| {
            look("library", log, |state, entries| library.well_formed(state, entries))
        }),
        less: vec![],
        others: vec![
            look("model", log, words::well_formed),
            look("idiomatic Rust", log, checks::idiomatic),
            look("branch-free Rust", log, checks::branch_free),
            look("or over the words", log, checks::limit),
        ],
    }
}

fn reads<'a>(libraries: &'a [Placed], name: &'static str, log: &'a Buffers) -> Row<'a> {
    Row {
        log: name,
        operation: "read chain",
        placed: at_each(libraries, |library| {
            read("library", log, |state, entries, output| library.read_chain(state, entries, output))
        }),
        less: vec![],
        others: vec![
            read("model", log, words::read_chain),
            read("copy, no check", log, checks::trusting_read),
            look("or over the words", log, checks::limit),
        ],
    }
}

/// A search in which no window goes over the limit, so that the walk goes to the end.
fn searches<'a>(
    libraries: &'a [Placed],
    name: &'static str,
    operation: &'static str,
    log: &'a Buffers,
    length: u64,
) -> Row<'a> {
    let limit = 1 << 60;
    assert_eq!(calls::first_window(&log.state, &log.entries, length, limit), Ok(None));
    Row {
        log: name,
        operation,
        placed: at_each(libraries, |library| {
            look("library", log, move |state, entries| library.first_window(state, entries, black_box(length), limit))
        }),
        less: vec![],
        others: vec![
            look("idiomatic walk", log, move |state, entries| {
                windows::first_over(state, entries, black_box(length), limit)
            }),
            look("library check", log, |state, entries| libraries[0].well_formed(state, entries)),
        ],
    }
}

/// The sum of some scores. The library's is its write of them, less its write of their sum at the same placement.
fn sum<'a>(libraries: &'a [Placed], operation: &'static str, inputs: &'a Inputs, count: usize) -> Row<'a> {
    let (log, scores, parts) = (&inputs.empty, &inputs.scores[..count], &inputs.parts);
    let sum = sums::by_loop(parts, scores).expect("they can be written");
    assert!(calls::write_scores(&mut log.state.clone(), &mut log.entries.clone(), 0, scores).is_ok());
    let to_write = &shared(log);
    Row {
        log: "empty",
        operation,
        placed: at_each(libraries, |library| {
            write("library", to_write, |state, entries| library.write_scores(state, entries, black_box(scores)))
        }),
        less: at_each(libraries, |library| {
            write("write", to_write, move |state, entries| library.write(state, entries, black_box(sum)))
        }),
        others: vec![
            Candidate::new("idiomatic loop", || {
                black_box(sums::by_loop(black_box(parts), black_box(scores)));
            }),
            Candidate::new("idiomatic iterator", || {
                black_box(sums::by_iterator(black_box(parts), black_box(scores)));
            }),
            Candidate::new("model", || {
                let _ = black_box(model::scores::sum(black_box(scores)));
            }),
        ],
    }
}

/// A plan of writes by client 0, on a log with room for all of them.
fn runs<'a>(libraries: &'a [Placed], inputs: &'a Inputs) -> Vec<Row<'a>> {
    let (log, plan) = (&inputs.empty, &inputs.plan[..]);
    let rights = &log.rights;
    assert_eq!(calls::forecast(&log.state, &log.entries, rights, plan, u64::MAX).entries, plan.len() as u64);
    let to_run = &shared(log);
    let plain = |name, placed| {
        run(name, to_run, plan, move |state, entries, plan| {
            plans::checked_run(state, entries, black_box(rights), plan, placed)
        })
    };
    let others = vec![
        plain("writes, one check", true),
        plain("without places", false),
        run("append, one check", to_run, plan, |state, entries, plan| {
            let log = libraries[0].well_formed(state, entries);
            log && plan.iter().all(|&word| checks::trusting_write(state, entries, 0, value_of(word)).is_some())
        }),
        run("library, singly", to_run, plan, |state, entries, plan| {
            plan.iter().map(|&word| libraries[0].write_with(state, entries, rights, value_of(word))).sum::<u64>()
        }),
    ];
    let planned = at_each(libraries, |library| {
        run("library", to_run, plan, |state, entries, plan| library.run_plan(state, entries, black_box(rights), plan))
    });
    let forecast = at_each(libraries, |library| {
        look("library", log, |state, entries| library.forecast(state, entries, rights, black_box(plan)))
    });
    let taken = vec![run("library, taken", to_run, plan, |state, entries, plan| {
        libraries[0].run_plan(state, entries, black_box(rights), plan)
    })];
    vec![
        Row { log: "empty", operation: "plan of 4,000 writes", placed: planned, less: vec![], others },
        Row { log: "empty", operation: "its forecast", placed: forecast, less: vec![], others: taken },
    ]
}

/// Words of a full log's number, rearranged.
fn rearranged<'a>(libraries: &'a [Placed], words: &'a [u64]) -> Row<'a> {
    fn row<'a>(
        name: &'static str,
        words: &'a [u64],
        rearrange: impl Fn(&[u64], &mut [u8]) -> bool + 'a,
    ) -> Candidate<'a> {
        let mut bytes = vec![0; 8 * words.len()];
        Candidate::new(name, move || assert!(rearrange(black_box(words), black_box(&mut bytes))))
    }
    Row {
        log: "4,096 words",
        operation: "rearrange",
        placed: at_each(libraries, |library| {
            row("library", words, |words, bytes| library.rearrange(words, bytes) == 0)
        }),
        less: vec![],
        others: vec![
            row("idiomatic, planes", words, storage::rearrange_by_planes),
            row("idiomatic, words", words, storage::rearrange_by_words),
            row("model", words, |words, bytes| model::storage::rearrange(words, bytes) == model::Answer::Done),
        ],
    }
}

/// Bytes of as many words, restored.
fn restored<'a>(libraries: &'a [Placed], bytes: &'a [u8]) -> Row<'a> {
    fn row<'a>(name: &'static str, bytes: &'a [u8], restore: impl Fn(&[u8], &mut [u64]) -> bool + 'a) -> Candidate<'a> {
        let mut words = vec![0; bytes.len() / 8];
        Candidate::new(name, move || assert!(restore(black_box(bytes), black_box(&mut words))))
    }
    Row {
        log: "4,096 words",
        operation: "restore",
        placed: at_each(libraries, |library| row("library", bytes, |bytes, words| library.restore(bytes, words) == 0)),
        less: vec![],
        others: vec![
            row("idiomatic, parts", bytes, storage::restore_by_parts),
            row("idiomatic, words", bytes, storage::restore_by_words),
            row("idiomatic, planes", bytes, storage::restore_by_planes),
            row("model", bytes, |bytes, words| model::storage::restore(bytes, words) == model::Answer::Done),
        ],
    }
}

/// All rows of the table.
pub fn all<'a>(libraries: &'a [Placed], inputs: &'a Inputs) -> Vec<Row<'a>> {
    let mut rows = vec![];
    let logs = [
        ("empty", &inputs.empty, &inputs.empty),
        ("255 ledgers, 255 entries", &inputs.ledgers, &inputs.ledgers),
        ("full", &inputs.nearly_full, &inputs.full),
    ];
    for (name, to_write, to_read) in logs {
        rows.extend(writes(libraries, name, to_write));
        rows.push(closes(libraries, name, to_read));
        rows.push(all_checks(libraries, name, to_read));
        rows.push(reads(libraries, name, to_read));
    }
    for (operation, length) in [("window of 1", 1), ("window of 16", 16), ("window of 256", 256)] {
        rows.push(searches(libraries, "full", operation, &inputs.full, length));
        rows.push(searches(libraries, "full, one ledger", operation, &inputs.one_ledger, length));
    }
    for (operation, count) in [("1 score", 1), ("150 scores", 150), ("4,000 scores", 4_000)] {
        rows.push(sum(libraries, operation, inputs, count));
    }
    rows.extend(runs(libraries, inputs));
    rows.push(rearranged(libraries, &inputs.words));
    rows.push(restored(libraries, &inputs.bytes));
    rows
}
