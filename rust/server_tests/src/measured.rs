//! A measured run: writers use the store and something else in turn, each for a slot of the clock that all share.

use crate::cluster::{Cluster, address};
use crate::controllers::{furnish, role};
use crate::plain::{self, Plain};
use crate::proxy::Proxy;
use std::path::{Path, PathBuf};
use std::sync::Barrier;
use std::sync::atomic::{AtomicBool, AtomicU64, Ordering};
use std::thread::{Scope, ScopedJoinHandle, scope, sleep};
use std::time::{Duration, Instant};
use store::{Error, Store};
use store_tests::rotating::{Logs, name_of};
use store_tests::sides::{BESIDE, STORE, Side, side_at};

/// How often a follower looks.
const LOOK: Duration = Duration::from_millis(10);

/// What the store's single writes are compared with.
#[derive(Clone, Copy, Debug, PartialEq, Eq)]
pub enum Beside {
    /// Plain inserts, at which nobody looks.
    Plain,
    /// Plain inserts, at which as many look as at the log.
    Followed,
    /// The store's own requests of many.
    Requests,
}

/// Who takes part in a run.
#[derive(Clone, Copy, Debug)]
pub struct Setup {
    /// How many write.
    pub writers: usize,
    /// Whether each writes a log of its own, and not all the same.
    pub own_logs: bool,
    /// How many follow the first log.
    pub followers: usize,
    /// How long the network takes, each way.
    pub delay: Duration,
    /// How much longer a sync of the server's takes.
    pub sync: Duration,
    /// What is compared.
    pub beside: Beside,
}

impl Setup {
    /// One writer on this computer, beside plain inserts.
    pub const ONE: Setup = Setup {
        writers: 1,
        own_logs: false,
        followers: 0,
        delay: Duration::ZERO,
        sync: Duration::ZERO,
        beside: Beside::Plain,
    };
}

/// Two connections for each of 128 writers, and some more.
const CONNECTIONS: &str = "max_connections = 300";

/// A server with the tables of logs and a plain one.
pub fn server() -> Cluster {
    let cluster = Cluster::new(CONNECTIONS);
    furnish(&cluster, &store::schema());
    plain::make(&cluster);
    cluster
}

/// A run that goes on.
struct Run<'a> {
    setup: Setup,
    port: u16,
    /// How the names of the logs begin.
    name: &'a str,
    time: Duration,
    /// All begin together.
    begin: Barrier,
    /// The number of the first log that the first writer is at.
    number: AtomicU64,
    failed: AtomicBool,
}

/// How long the server may take to read its settings.
const SETTLED: Duration = Duration::from_millis(300);

/// Measures for a time what each writer does on each side. Logs have this name, and numbers of their own.
pub fn measured(cluster: &Cluster, setup: Setup, name: &str, time: Duration) -> Result<Vec<[Side; 2]>, String> {
    let slow = |sync: Duration| {
        // The one who syncs for a group of commits waits for so long before it does.
        cluster.set(&format!("commit_delay = {}\ncommit_siblings = 0", sync.as_micros()));
        sleep(SETTLED);
    };
    if setup.sync.is_zero() {
        return run(cluster, setup, name, time);
    }
    slow(setup.sync);
    let sides = run(cluster, setup, name, time);
    slow(Duration::ZERO);
    sides
}

fn run(cluster: &Cluster, setup: Setup, name: &str, time: Duration) -> Result<Vec<[Side; 2]>, String> {
    let proxy = (!setup.delay.is_zero()).then(|| Proxy::to(cluster.port()));
    if let Some(proxy) = &proxy {
        proxy.delay(setup.delay);
    }
    let port = proxy.as_ref().map_or(cluster.port(), Proxy::port);
    let begin = Barrier::new(setup.writers + setup.followers);
    let run = Run { setup, port, name, time, begin, number: AtomicU64::new(0), failed: AtomicBool::new(false) };
    scope(|scope| {
        let writers: Vec<_> = (0..setup.writers).map(|number| run.start(scope, move |run| run.write(number))).collect();
        let followers: Vec<_> = (0..setup.followers).map(|_| run.start(scope, Run::follow)).collect();
        let sides = writers.into_iter().map(ended).collect::<Result<Vec<_>, _>>()?;
        followers.into_iter().try_for_each(ended)?;
        Ok(sides)
    })
}

fn ended<T>(thread: ScopedJoinHandle<'_, Result<T, String>>) -> Result<T, String> {
    thread.join().unwrap_or_else(|_| Err("a thread panicked".into()))
}

fn text(error: impl ToString) -> String {
    error.to_string()
}

impl Run<'_> {
    fn start<'scope, T: Send + 'scope>(
        &'scope self,
        scope: &'scope Scope<'scope, '_>,
        work: impl FnOnce(&'scope Self) -> Result<T, String> + Send + 'scope,
    ) -> ScopedJoinHandle<'scope, Result<T, String>> {
        // The others end early where one fails.
        scope.spawn(move || work(self).inspect_err(|_| self.failed.store(true, Ordering::Relaxed)))
    }

    /// The path of a writer's logs, as its role has it.
    fn logs(&self, number: usize) -> PathBuf {
        let which = if self.setup.own_logs { number } else { 0 };
        format!("{}/{}-{which}", address(&role(0), &[self.port]), self.name).into()
    }

    /// The side whose turn it is, until the end.
    fn side(&self, began: Instant) -> Option<usize> {
        let gone = began.elapsed();
        let ends = gone >= self.time || self.failed.load(Ordering::Relaxed);
        (!ends).then(|| side_at(gone))
    }

    fn write(&self, number: usize) -> Result<[Side; 2], String> {
        let opened = Writer::open(&self.logs(number), self.port, self.setup.beside);
        self.begin.wait();
        let (began, mut writer) = (Instant::now(), opened?);
        let mut sides = [Side::default(); 2];
        while let Some(side) = self.side(began) {
            let (since, value) = (Instant::now(), sides[side].writes);
            let writes = writer.write(side, value)?;
            sides[side].add(writes, since.elapsed());
            if number == 0 {
                self.number.store(writer.logs.number, Ordering::Relaxed);
            }
        }
        Ok(sides)
    }

    fn follow(&self) -> Result<(), String> {
        let opened = Plain::open(self.port).map_err(text);
        self.begin.wait();
        let (began, mut plain, mut followed) = (Instant::now(), opened?, None);
        while let Some(side) = self.side(began) {
            match (side, self.setup.beside) {
                (STORE, _) => look(&mut followed, &self.logs(0), self.number.load(Ordering::Relaxed)).map_err(text)?,
                (_, Beside::Followed) => plain.look().map_err(text)?,
                _ => {}
            }
            sleep(LOOK);
        }
        Ok(())
    }
}

/// Reads what is new in the log of this number.
fn look(followed: &mut Option<(u64, Store)>, logs: &Path, number: u64) -> Result<(), Error> {
    if followed.as_ref().is_none_or(|(before, _)| *before != number) {
        *followed = Some((number, Store::open_read_only(name_of(logs, number))?));
    }
    if let Some((_, store)) = followed {
        store.latest()?;
    }
    Ok(())
}

/// What one writer has open.
struct Writer {
    logs: Logs,
    other: Other,
}

/// What its single writes are compared with.
enum Other {
    Plain(Plain),
    Requests(Logs),
}

impl Writer {
    fn open(logs: &Path, port: u16, beside: Beside) -> Result<Writer, String> {
        let many = format!("{}-many", logs.display()).into();
        let other = match beside {
            Beside::Plain | Beside::Followed => Other::Plain(Plain::open(port).map_err(text)?),
            Beside::Requests => Other::Requests(Logs::open(many, 0).map_err(text)?),
        };
        let mut writer = Writer { logs: Logs::open(logs.into(), 0).map_err(text)?, other };
        // So that it leads when the run begins.
        for side in [STORE, BESIDE] {
            writer.write(side, 0)?;
        }
        Ok(writer)
    }

    /// Writes on a side, and says how many writes that were.
    fn write(&mut self, side: usize, value: u64) -> Result<u64, String> {
        match &mut self.other {
            _ if side == STORE => self.logs.write(value).map(|()| 1).map_err(text),
            Other::Plain(plain) => plain.write(value).map(|()| 1).map_err(text),
            Other::Requests(logs) => logs.write_many(value).map_err(text),
        }
    }
}
