//! A run: controllers share logs on a server while something fails, again and again; then the logs are audited.

use crate::cluster::Cluster;
use crate::controllers::AUDITOR;
use crate::fault::Fault;
use crate::rows;
use crate::site::Site;
use model::random::Random;
use std::path::Path;
use std::time::{Duration, Instant};
use store::Store;
use store_tests::audit::{Counts, audit, lost};
use store_tests::journal::Row;
use store_tests::place::name_of;
use store_tests::processes::{PROCESSES, Processes, UNKNOWN};
use store_tests::scratch::Scratch;
use store_tests::waits::{self, Wait};
use store_tests::worker::Mode;

/// How long a controller is stopped, in milliseconds.
const STOPPED: (u64, u64) = (20, 3_000);

/// How long a controller may need to come to its first step.
const BEGINNING: Duration = Duration::from_secs(1);

/// What happened this long before a call may be why it takes long, in microseconds.
pub const BEFORE: u64 = 1_000_000;

/// What came of a run.
pub struct Outcome {
    /// How often something failed.
    pub events: u64,
    /// How many controllers were not told whether their last step is stored.
    pub unknown: u64,
    /// How many ended by themselves for another reason.
    pub gave_up: u64,
    /// The longest call of a controller that was not itself stopped or cut off meanwhile, and what happened to the servers
    /// from a second before it to its end, each with how many microseconds it was after that.
    pub longest: Option<(Wait, Vec<(u64, &'static str)>)>,
    /// What the audit found.
    pub audited: Result<Counts, String>,
    /// How many writes were acknowledged and are in no log.
    pub lost: usize,
}

struct Run {
    fault: Fault,
    site: Site,
    processes: Processes,
    random: Random,
    events: u64,
    unknown: u64,
    gave_up: u64,
}

/// Has controllers work for a time while something fails, ends them all, and audits what they left.
pub fn run(fault: Fault, time: Duration, seed: u64) -> Result<Outcome, String> {
    let mut random = Random::new(seed);
    let scratch = Scratch::new();
    let site = Site::new(fault);
    let places = (0..PROCESSES).map(|number| site.place(scratch.folder(), number)).collect();
    let processes = Processes::start(places, Mode::Sound, fault.is_control(), &mut random)?;
    let mut run = Run { fault, site, processes, random, events: 0, unknown: 0, gave_up: 0 };
    std::thread::sleep(BEGINNING);
    let end = Instant::now() + time;
    while Instant::now() < end {
        run.turn()?;
    }
    // Those who wait for an answer may get it; then all are killed, between two steps or in one.
    std::thread::sleep(BEGINNING);
    run.tend()?;
    run.end(scratch.folder())
}

impl Run {
    fn turn(&mut self) -> Result<(), String> {
        self.tend()?;
        self.events += match self.fault {
            Fault::Kill => self.kill()?,
            Fault::Stop => self.stop()?,
            _ => self.site.fail(&mut self.random),
        };
        Ok(())
    }

    fn kill(&mut self) -> Result<u64, String> {
        let number = self.processes.choose(&mut self.random);
        self.processes.kill(number, &mut self.random)?;
        std::thread::sleep(Duration::from_millis(self.random.below(40)));
        Ok(1)
    }

    fn stop(&mut self) -> Result<u64, String> {
        self.processes.wake()?;
        let number = self.processes.choose(&mut self.random);
        let time = Duration::from_millis(self.random.between(STOPPED.0, STOPPED.1));
        self.processes.stop(number, time)?;
        std::thread::sleep(Duration::from_millis(self.random.between(50, 500)));
        Ok(1)
    }

    /// Starts those again who have ended by themselves.
    fn tend(&mut self) -> Result<(), String> {
        for status in self.processes.tend(&mut self.random)? {
            if status == Some(UNKNOWN.into()) {
                self.unknown += 1;
            } else {
                self.gave_up += 1;
            }
        }
        Ok(())
    }

    fn end(mut self, folder: &Path) -> Result<Outcome, String> {
        let mut own = self.processes.stops_until_now();
        drop(self.processes);
        own.extend(self.site.settle());
        let server = self.site.primary();
        let place = self.site.place_of_owner(folder);
        let audited = audit(&place, PROCESSES, Mode::Sound, &|log| audited_rows(server, &name_of(log)));
        let longest = longest(folder, &own);
        let longest = longest.map(|wait| (wait, self.site.moments(wait.from - BEFORE, wait.to)));
        let lost = lost(&place, PROCESSES)?;
        Ok(Outcome { events: self.events, unknown: self.unknown, gave_up: self.gave_up, longest, audited, lost })
    }
}

/// The rows of a log, with the answers that the product's own audit gives them. The model is to give the same.
fn audited_rows(server: &Cluster, log: &str) -> Result<Vec<Row>, String> {
    let store = Store::open(server.address(AUDITOR, log));
    let audited = store.and_then(|mut store| store.audit()).map_err(|error| error.to_string())?;
    let rows = rows::of_log(server, log)?;
    if audited != rows.len() as i64 || rows.iter().any(|row| row.answer.is_none()) {
        return Err(format!("{audited} of {} rows are audited", rows.len()));
    }
    Ok(rows)
}

/// The longest call of a controller that was not itself in trouble meanwhile.
fn longest(folder: &Path, troubles: &[(u64, u64, u64)]) -> Option<Wait> {
    let in_trouble = |wait: &Wait| {
        troubles.iter().any(|&(process, from, to)| process == wait.process && from <= wait.to && wait.from <= to)
    };
    waits::all(folder, PROCESSES).into_iter().filter(|wait| !in_trouble(wait)).max_by_key(|wait| wait.time())
}
