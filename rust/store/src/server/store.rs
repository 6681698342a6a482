//! A log on a server.

use super::audit::Auditor;
use super::engine::ServerEngine;
use crate::address::ServerAddress;
use crate::check::{Checked, WrongAnswer};
use crate::driver::{Driver, Wish};
use crate::engine::Engine;
use crate::file::processes::{LOOKED_AT, Stepper};
use crate::journal::EachRow;
use crate::kept::Kept;
use crate::replica::{Follower, Replica};
use crate::request::{Chain, Told};
use crate::store::PATIENCE;
use crate::{Error, Known};
use cindrolf::Capacity;
use std::path::{Path, PathBuf};
use std::time::{Duration, Instant};

/// A log on a server.
pub(crate) struct ServerStore {
    path: PathBuf,
    /// The process that opened it.
    opened_by: u32,
    is_read_only: bool,
    driver: Driver<ServerEngine>,
    /// What has audited rows, once that was asked for.
    auditor: Option<Auditor>,
    /// What has read rows for a caller, so that it goes on after them.
    read: Option<Auditor>,
}

impl ServerStore {
    pub fn create(address: ServerAddress, client_count: u64, capacity: Capacity) -> Result<Self, Error> {
        Replica::fresh(client_count, capacity)?;
        let mut engine = ServerEngine::new(address.clone(), PATIENCE);
        if !engine.create(client_count, capacity)? {
            return Err(Error::Exists);
        }
        ServerStore::over(address, engine, false).map_err(|error| match error {
            // The log is made, so that it is not true that nothing is stored.
            Error::Unreachable(why) => Error::Unknown { request: 0, why },
            error => error,
        })
    }

    pub fn open(address: ServerAddress) -> Result<Self, Error> {
        let engine = ServerEngine::new(address.clone(), PATIENCE);
        ServerStore::over(address, engine, false)
    }

    pub fn open_read_only(address: ServerAddress) -> Result<Self, Error> {
        let engine = ServerEngine::new(address.clone(), PATIENCE);
        ServerStore::over(address, engine, true)
    }

    fn over(address: ServerAddress, engine: ServerEngine, is_read_only: bool) -> Result<Self, Error> {
        let path = format!("{}/{}", address.connection.split('?').next().unwrap_or_default(), address.log).into();
        Ok(ServerStore {
            path,
            opened_by: std::process::id(),
            is_read_only,
            driver: Driver::over(engine)?,
            auditor: None,
            read: None,
        })
    }

    /// A connection is of the process that made it.
    fn driver(&mut self) -> Result<&mut Driver<ServerEngine>, Error> {
        if self.opened_by == std::process::id() { Ok(&mut self.driver) } else { Err(Error::Forked) }
    }
}

impl Kept for ServerStore {
    fn path(&self) -> &Path {
        &self.path
    }

    fn set_patience(&mut self, patience: Duration) {
        self.driver.engine.patience = patience;
    }

    fn set_process_name(&mut self, name: &str) {
        self.driver.engine.process = name.into();
    }

    fn ask(&mut self, wish: &Wish<'_>) -> Result<(Vec<Told>, Option<Known>), Error> {
        if self.is_read_only {
            return Err(Error::ReadOnly);
        }
        let driver = self.driver()?;
        driver.engine.stored = false;
        let deadline = Instant::now() + driver.engine.patience;
        let told = driver.ask(wish, deadline)?;
        Ok((told, driver.engine.stored.then(|| driver.known())))
    }

    fn latest(&mut self) -> Result<&Replica, Error> {
        let driver = self.driver()?;
        driver.follow()?;
        Ok(&driver.replica)
    }

    fn known(&self) -> Option<Known> {
        Some(self.driver.known())
    }

    fn wrong_answers(&self) -> &[WrongAnswer] {
        &self.driver.wrong
    }

    fn check(&mut self) -> Result<Checked, Error> {
        let driver = self.driver()?;
        let mut again = driver.engine.beginning()?;
        driver.engine.feed(Follower::one_by_one(&mut again), None)?;
        driver.follow()?;
        if again.known == driver.known() && again != driver.replica {
            return Err(Error::Damaged("its words are others than its rows come to".into()));
        }
        Ok(Checked { rows: again.known.rows, wrong: Vec::new() })
    }

    fn chain_of(&mut self, row: i64) -> Result<Option<Chain>, Error> {
        let engine = &mut self.driver()?.engine;
        if row == 0 { Ok(Some(engine.beginning()?.known.chain)) } else { engine.chain_of(row) }
    }

    /// A server's rows have no answers: each is taken once more, from the first on, or from the last that was read.
    fn each_row(&mut self, first: i64, each: &mut EachRow<'_>) -> Result<(), Error> {
        let read = self.read.take().filter(|read| read.rows_known() < first);
        let engine = &mut self.driver()?.engine;
        let mut read = read.map_or_else(|| Auditor::new(engine), Ok)?;
        read.rows(engine, &mut |row| if row.row.known.rows < first { Ok(()) } else { each(row) })?;
        self.read = Some(read);
        Ok(())
    }

    fn steppers(&mut self, clients: usize) -> Result<Vec<Stepper>, Error> {
        let rows = self.driver()?.engine.last_steps(LOOKED_AT)?;
        let steps = (0..rows.count()).filter_map(|row| Some((rows.number(row, 0)?, rows.text(row, 1)?)));
        Ok(Stepper::of_steps(clients, steps))
    }

    fn audit(&mut self) -> Result<i64, Error> {
        if self.opened_by != std::process::id() {
            return Err(Error::Forked);
        }
        let engine = &mut self.driver.engine;
        let auditor = match &mut self.auditor {
            Some(auditor) => auditor,
            none => none.insert(Auditor::new(engine)?),
        };
        auditor.go_on(engine).inspect_err(|_| self.auditor = None)
    }

    fn has_more(&mut self) -> Result<bool, Error> {
        let driver = self.driver()?;
        let rows = driver.known().rows;
        Ok(driver.engine.count()? > rows)
    }

    fn settle(&mut self, request: u64) -> Result<Option<i64>, Error> {
        self.driver()?.engine.settle(request)
    }

    fn checkpoint(&mut self) -> Result<bool, Error> {
        Ok(true)
    }

    fn close(self: Box<Self>) -> Result<(), Error> {
        Ok(())
    }

    fn copy_file(&mut self, _: &Path) -> Option<Result<(), Error>> {
        None
    }

    fn upgrade_to(&mut self, _: &Path) -> Result<(), Error> {
        Err(Error::UpToDate)
    }
}
