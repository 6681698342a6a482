//! Logs that replace each other as they fill, for measurements.

use crate::shared::open_store;
use cindrolf::{Capacity, Kind, Refusal, Step};
use limits::BATCH_LIMIT;
use std::path::{Path, PathBuf};
use store::{Asked, Change, Error, Store};

/// How many writes a request of many has.
pub const MANY: u64 = BATCH_LIMIT as u64;

/// Logs that rotate as they fill, in files or on a server. All writers step for client 0, since only one client writes at a time.
pub struct Logs {
    /// Where they are, and how their names begin.
    path: PathBuf,
    /// The number of the one that is written.
    pub number: u64,
    store: Store,
}

impl Logs {
    /// Opens the log of this number; one that is not there is created.
    pub fn open(path: PathBuf, number: u64) -> Result<Logs, Error> {
        let store = open_store(&name_of(&path, number), 16, Capacity::Large)?;
        Ok(Logs { path, number, store })
    }

    fn next(&mut self) -> Result<(), Error> {
        *self = Logs::open(self.path.clone(), self.number + 1)?;
        Ok(())
    }

    /// Writes many in one request, and says how many were accepted: some are refused where a log gets full.
    pub fn write_many(&mut self, first: u64) -> Result<u64, Error> {
        let asked: Vec<Asked> = (first..first + MANY).map(|value| Change::Step(0, Step::write(value)).into()).collect();
        loop {
            let told = self.store.take_all(&asked)?;
            match told[0] {
                Ok(_) => return Ok(told.iter().filter(|told| told.is_ok()).count() as u64),
                Err(Refusal::LogFull) => self.next()?,
                Err(Refusal::DoesNotLead | Refusal::OtherStage) => self.lead()?,
                Err(refusal) => return Err(refusal.into()),
            }
        }
    }

    /// Writes a value, in the next log where this one is full.
    pub fn write(&mut self, value: u64) -> Result<(), Error> {
        loop {
            match self.store.write(0, value) {
                Ok(_) => return Ok(()),
                Err(Error::Refused(Refusal::LogFull)) => self.next()?,
                Err(Error::Refused(Refusal::DoesNotLead | Refusal::OtherStage)) => self.lead()?,
                Err(error) => return Err(error),
            }
        }
    }

    /// Takes a step towards the first write, unless another process was faster.
    fn lead(&mut self) -> Result<(), Error> {
        let step = match self.store.latest()?.log().advise(0)? {
            Some(kind @ (Kind::Become | Kind::Fetch | Kind::Create | Kind::Append)) => Step::new(kind, 0),
            _ => return Ok(()),
        };
        match self.store.take(0, step) {
            Ok(_) | Err(Error::Refused(_)) => Ok(()),
            Err(error) => Err(error),
        }
    }
}

/// The path or address of the log of a number.
pub fn name_of(path: &Path, number: u64) -> PathBuf {
    let mut name = path.as_os_str().to_owned();
    name.push(format!("-{number}.db"));
    name.into()
}
