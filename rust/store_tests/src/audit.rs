//! Compares the logs that killed processes left with their notes.

use crate::journal::{self, Row};
use crate::notes::{Collected, sum};
use crate::place::{Place, capacity_of};
use crate::refusals;
use crate::shared::{Shared, WordStore};
use crate::worker::Mode;
use cindrolf::{LedgerNumber, LogRef, client_of, value_of};
use std::collections::BTreeSet;
use store::Store;

/// What an audit counted.
#[derive(Clone, Copy, Debug, Default, PartialEq, Eq)]
pub struct Counts {
    /// Logs.
    pub logs: u64,
    /// Rows of their journals.
    pub steps: i64,
    /// Writes that were answered, and are stored.
    pub acknowledged: u64,
    /// Entries beside them, each the last request of a process that was killed.
    pub besides: u64,
    /// Ledgers that hold what they held when they were closed.
    pub closed: u64,
    /// Steps that were refused, each as the model does.
    pub refused: u64,
    /// The numbers of their refusals, each a bit.
    pub refusals: u64,
}

/// Reads the rows of a log past the store.
pub type ReadRows<'a> = &'a dyn Fn(u64) -> Result<Vec<Row>, String>;

struct Audit<'a> {
    place: &'a Place,
    clients: u64,
    rows: ReadRows<'a>,
    notes: &'a Collected,
    counts: Counts,
    found: BTreeSet<u64>,
}

/// Looks through all logs of a run. What does not hold is the error.
pub fn audit(place: &Place, clients: u64, mode: Mode, rows: ReadRows<'_>) -> Result<Counts, String> {
    let notes = &Collected::read(place.folder(), clients).map_err(|error| error.to_string())?;
    let mut audit = Audit { place, clients, rows, notes, counts: Counts::default(), found: BTreeSet::new() };
    for log in 0..place.log_count() {
        audit.log(log, mode).map_err(|why| format!("log {log}: {why}"))?;
    }
    if let Some(lost) = notes.stored.keys().find(|value| !audit.found.contains(value)) {
        return Err(format!("the write of {lost} was acknowledged, and is in no log"));
    }
    Ok(audit.counts)
}

/// How many writes were acknowledged that are in no log of a run: what an audit fails for, if it fails for the right reason.
pub fn lost(place: &Place, clients: u64) -> Result<usize, String> {
    let notes = Collected::read(place.folder(), clients).map_err(|error| error.to_string())?;
    let mut found = BTreeSet::new();
    for log in 0..place.log_count() {
        // A log that is gone holds nothing.
        if let Ok(mut store) = Store::open(place.log(log)) {
            let chain = store.latest().and_then(|latest| latest.chain()).map_err(|error| error.to_string())?;
            found.extend(chain.into_iter().map(value_of));
        }
    }
    Ok(notes.stored.keys().filter(|value| !found.contains(value)).count())
}

impl Audit<'_> {
    fn log(&mut self, log: u64, mode: Mode) -> Result<(), String> {
        let (path, clients) = (self.place.log(log), self.clients);
        self.counts.logs += 1;
        if mode == Mode::CommitsWords {
            let mut words = WordStore::open(&path, clients, capacity_of(log)).map_err(|error| error.to_string())?;
            return self.entries(log, words.log().map_err(|error| error.to_string())?);
        }
        let mut store = match Store::open(&path) {
            // Nobody got further than to begin it.
            Err(store::Error::Unfinished) => return Ok(()),
            store => store.map_err(|error| error.to_string())?,
        };
        self.counts.steps += store.check().map_err(|error| error.to_string())?.rows;
        let refused: Vec<_> = self.notes.refused.iter().filter(|refused| refused.log == log).copied().collect();
        self.counts.refusals |= refused.iter().fold(0, |bits, refused| bits | 1 << refused.refusal);
        let rows = (self.rows)(log)?;
        journal::ids(&rows)?;
        self.counts.refused += refusals::compare(&rows, clients, capacity_of(log).words(), &refused)?;
        self.entries(log, store.latest().map_err(|error| error.to_string())?.log())
    }

    fn entries(&mut self, log: u64, words: LogRef<'_>) -> Result<(), String> {
        let view = words.view().map_err(|error| error.to_string())?;
        let mut output = vec![0; words.entries().len()];
        let count = words.read_chain(&mut output).map_err(|error| error.to_string())?;
        if count as u64 != view.entry_count() {
            return Err(format!("the chain has {count} of {} entries", view.entry_count()));
        }
        let mut places = [0; 256];
        for (number, &word) in (0..).zip(&output[..count]) {
            let ledger = (words.entries()[number as usize] >> 56) as usize;
            self.entry(log, (number, places[ledger]), word)?;
            places[ledger] += 1;
        }
        for &(_, ledger, entries, held) in self.notes.closed.iter().filter(|closed| closed.0 == log) {
            let now = words.read_ledger(LedgerNumber(ledger)).map_err(|error| format!("ledger {ledger}: {error}"))?;
            if (now.len() as u64, sum(now)) != (entries, held) {
                return Err(format!("ledger {ledger} is not what it was when it was closed"));
            }
            self.counts.closed += 1;
        }
        Ok(())
    }

    /// An entry of the chain: it was acknowledged as that, or it is what a killed process asked for last.
    fn entry(&mut self, log: u64, at: (u64, u64), word: u64) -> Result<(), String> {
        let (client, value) = (client_of(word), value_of(word));
        if client != value >> 48 || !self.found.insert(value) {
            return Err(format!("entry {} holds {value} of client {client}, which is stored twice or another's", at.0));
        }
        match self.notes.stored.get(&value) {
            Some(&(noted, place)) if noted == log && place.is_none_or(|place| place == at) => {
                self.counts.acknowledged += 1
            }
            Some(&(noted, place)) => {
                return Err(format!("entry {at:?} was acknowledged as {place:?} of log {noted}"));
            }
            None if self.notes.last.get(&value) == Some(&log) => self.counts.besides += 1,
            None => {
                return Err(format!("entry {at:?} holds {value}, which nobody asked for last before it was killed"));
            }
        }
        Ok(())
    }
}
