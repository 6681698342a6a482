//! The audit of a log on a server, which continues with new rows.

use crate::failure::Failure;
use crate::signals::Signals;
use std::path::Path;
use std::time::{Duration, Instant};

/// How long to wait for rows before a signal is looked for.
const WAIT: Duration = Duration::from_millis(500);

/// Audits all rows, and those that come until a signal ends it. Prints how many there are whenever that has changed.
pub fn audit(file: &Path, once: bool) -> Result<(), Failure> {
    let signals = Signals::catch().map_err(Failure::Input)?;
    let mut store = crate::open(file)?;
    let failed = |error| Failure::of_reading(file, error);
    let mut told = None;
    while !signals.came() {
        let rows = store.audit().map_err(failed)?;
        if told != Some(rows) {
            crate::print(&format!("{rows} rows audited\n"))?;
            told = Some(rows);
        }
        if once {
            return Ok(());
        }
        store.latest().map_err(failed)?;
        store.changed(Instant::now() + WAIT).map_err(failed)?;
    }
    drop(store);
    signals.end();
    Ok(())
}
