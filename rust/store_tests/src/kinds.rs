//! Every kind of change to a store, each on a log that accepts it.

use cindrolf::{Capacity, Right, Step, StepWord};
use std::path::Path;
use store::{Error, Store};

/// A change, and what has to come before it.
pub struct Change {
    /// Its name.
    pub name: &'static str,
    /// The steps before it.
    pub before: Vec<(u64, Step)>,
    /// The change itself.
    pub make: fn(&mut Store) -> Result<(), Error>,
}

/// A log of two clients in a new file, after these steps.
pub fn prepared(path: &Path, before: &[(u64, Step)]) -> Store {
    let mut store = Store::create(path, 2, Capacity::Large).expect("a new file");
    for &(client, step) in before {
        let _ = store.take(client, step).unwrap_or_else(|error| panic!("{step:?} of client {client}: {error}"));
    }
    store
}

/// The kinds of change: the ten steps, a write of scores, a plan, a mark that is set and a right that is taken away. A
/// mark that is dropped and a right that is given are rows of the same form.
pub fn changes() -> Vec<Change> {
    let leads: &[_] = &[(0, Step::BECOME), (0, Step::FETCH), (0, Step::CREATE), (0, Step::APPEND)];
    let written = &[leads, &[(0, Step::write(7))]].concat();
    let fetched = &[&written[..], &[(1, Step::NAME), (1, Step::BECOME), (1, Step::FETCH)]].concat();
    let fenced = &[&fetched[..], &[(1, Step::CLOSE_LAST)]].concat();
    let change = |name, before: &[_], make| Change { name, before: before.to_vec(), make };
    vec![
        change("name", &[], |store| store.name(1)),
        change("become", &[], |store| store.become_leader(0)),
        change("abdicate", &[(0, Step::BECOME), (1, Step::NAME)], |store| store.abdicate(0)),
        change("fetch", &leads[..1], |store| store.fetch(0)),
        change("close last", fetched, |store| store.close_last(1).map(drop)),
        change("finish", fenced, |store| store.finish(1).map(drop)),
        change("create", &leads[..2], |store| store.create_ledger(0)),
        change("append", &leads[..3], |store| store.append(0).map(drop)),
        change("write", leads, |store| store.write(0, 201).map(drop)),
        change("close own", written, |store| store.close_own(0).map(drop)),
        change("write scores", leads, |store| store.write_scores(0, &[40, 372]).map(drop)),
        change("set mark", written, |store| store.set_mark("wash".parse()?)),
        change("revoke", written, |store| store.revoke(1, Right::Name)),
        change("plan", leads, |store| {
            let word = |value| StepWord::new(0, Step::write(value)).expect("a client and a value");
            store.run_plan(&[word(1), word(2), word(3)], 3).map(drop)
        }),
    ]
}
