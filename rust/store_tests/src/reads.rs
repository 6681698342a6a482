//! Logs in files with so many reads, for measurements.

use cindrolf::{Capacity, Step};
use limits::BATCH_LIMIT;
use std::path::Path;
use store::{Asked, Change, Error, Store};

/// A new log of two clients, of which the first has written so many entries, to one ledger.
pub fn create(path: &Path, entries: u64) -> Result<Store, Error> {
    let mut store = Store::create(path, 2, Capacity::Large)?;
    let lead = [Step::BECOME, Step::FETCH, Step::CREATE, Step::APPEND];
    let writes = (0..entries).map(|number| Step::write(number * 1_000_003));
    let steps: Vec<Asked> = lead.into_iter().chain(writes).map(|step| Change::Step(0, step).into()).collect();
    for request in steps.chunks(BATCH_LIMIT) {
        assert!(store.take_all(request)?.iter().all(Result::is_ok), "a step of {entries} writes is refused");
    }
    Ok(store)
}
