//! What a call costs from Rust: costs FILE. Prints the lines of tests/costs.c.

use cindrolf::{Capacity, Kind, Log, Step};
use std::process::ExitCode;
use std::time::Instant;
use store::{Error, Store};

const ROUNDS: usize = 50;

fn main() -> ExitCode {
    let Some(file) = std::env::args().nth(1) else { return ExitCode::from(2) };
    match costs(&file) {
        Ok(()) => ExitCode::SUCCESS,
        Err(error) => {
            eprintln!("costs: {error}");
            ExitCode::FAILURE
        }
    }
}

fn costs(file: &str) -> Result<(), Error> {
    measure("write, in memory", 500, fresh, |log| log.write(0, 201).map(|_| ()).map_err(Error::from))?;
    let mut log = fresh()?;
    for _ in 0..500 {
        log.write(0, 201)?;
    }
    measure("advice, in memory", 500, nothing, |()| log.advise(0).map(|_| ()).map_err(Error::from))?;
    let mut store = Store::create(file, 2, Capacity::Large)?;
    while let Some(kind) = store.latest()?.log().advise(0)?.filter(|&kind| kind != Kind::Write) {
        let _ = store.take(0, Step::new(kind, 0))?;
    }
    measure("refused step of a store", 50, nothing, |()| match store.become_leader(1) {
        Err(Error::Refused(_)) => Ok(()),
        other => other,
    })?;
    let (mut state, mut entries) = (log.state().to_vec(), log.entries().to_vec());
    measure("snapshot of a store", 50, nothing, |()| {
        let latest = store.latest()?;
        state.copy_from_slice(latest.log().state());
        entries.copy_from_slice(latest.log().entries());
        Ok(())
    })?;
    measure("write of a store", 50, nothing, |()| store.write(0, 201).map(|_| ()))
}

/// A log in memory in which client 0 may write.
fn fresh() -> Result<Log, Error> {
    let mut log = Log::fresh(2)?;
    while let Some(kind) = log.advise(0)?.filter(|&kind| kind != Kind::Write) {
        let _ = log.take(0, Step::new(kind, 0))?;
    }
    Ok(log)
}

fn nothing() -> Result<(), Error> {
    Ok(())
}

/// Prints the nanoseconds of a call, the best of some rounds. What a round begins with is not part of its time.
fn measure<T>(
    name: &str,
    count: u32,
    before: impl Fn() -> Result<T, Error>,
    mut call: impl FnMut(&mut T) -> Result<(), Error>,
) -> Result<(), Error> {
    let mut best = u128::MAX;
    for _ in 0..ROUNDS {
        let mut thing = before()?;
        let since = Instant::now();
        for _ in 0..count {
            call(&mut thing)?;
        }
        best = best.min(since.elapsed().as_nanos() / u128::from(count));
    }
    println!("{name}:{best}");
    Ok(())
}
