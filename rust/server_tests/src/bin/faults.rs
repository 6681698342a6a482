//! Lets controllers share logs on a server while controllers, servers and networks fail, and checks that nothing is
//! lost.

use cindrolf_server_tests::fault::Fault;
use cindrolf_server_tests::programs;
use cindrolf_server_tests::run::{BEFORE, Outcome, run};
use std::process::ExitCode;
use std::time::Duration;
use store_tests::audit::Counts;
use store_tests::processes::{PROCESSES, WORKER, work};

const USAGE: &str = "usage: faults [--seconds N] [--seed N] [--fault NAME]";

/// The status of a test that cannot be made here.
const SKIPPED: u8 = 77;

/// How long a control may take to fail, in rounds of a few seconds.
const CONTROL_ROUNDS: u64 = 5;
const CONTROL_TIME: Duration = Duration::from_secs(8);

struct Options {
    time: Duration,
    seed: u64,
    faults: Vec<Fault>,
}

fn main() -> ExitCode {
    let words: Vec<String> = std::env::args().skip(1).collect();
    let words: Vec<&str> = words.iter().map(String::as_str).collect();
    if let [WORKER, words @ ..] = &words[..] {
        return work(words);
    }
    if let Some(why) = programs::missing() {
        eprintln!("SKIPPED: faults of servers and networks: {why}");
        return ExitCode::from(SKIPPED);
    }
    let result = options(&words).and_then(|options| test(&options));
    match result {
        Ok(()) => ExitCode::SUCCESS,
        Err(why) => {
            eprintln!("faults: {why}");
            ExitCode::FAILURE
        }
    }
}

fn options(words: &[&str]) -> Result<Options, String> {
    let now = std::time::SystemTime::now().duration_since(std::time::UNIX_EPOCH).map_or(0, |now| now.as_secs());
    let mut options = Options { time: Duration::from_secs(30), seed: now % 1_000_000, faults: Vec::new() };
    for pair in words.chunks(2) {
        let number = |text: &str| text.parse::<u64>().map_err(|_| format!("'{text}' is no number\n{USAGE}"));
        match *pair {
            ["--seconds", text] => options.time = Duration::from_secs(number(text)?.max(1)),
            ["--seed", text] => options.seed = number(text)?,
            ["--fault", name] => {
                let names = Fault::ALL.map(Fault::name).join(", ");
                options.faults.push(Fault::from_name(name).ok_or(format!("the faults are {names}"))?);
            }
            _ => return Err(USAGE.into()),
        }
    }
    if options.faults.is_empty() {
        options.faults = Fault::ALL.into();
    }
    Ok(options)
}

fn test(options: &Options) -> Result<(), String> {
    let &Options { time, seed, ref faults } = options;
    println!("faults: {PROCESSES} controllers, each fault for {} s, seed {seed}", time.as_secs());
    for &fault in faults {
        let name = fault.name();
        let tried = if fault.is_control() { control(fault, seed) } else { sound(fault, time, seed) };
        tried.map_err(|why| format!("{name}: {why} (seed {seed})"))?;
    }
    Ok(())
}

/// A run in which nothing may be lost.
fn sound(fault: Fault, time: Duration, seed: u64) -> Result<(), String> {
    let outcome = run(fault, time, seed)?;
    let counts = *outcome.audited.as_ref().map_err(Clone::clone)?;
    report(fault, &outcome, counts);
    if outcome.gave_up > 0 {
        return Err(format!("{} controllers ended by themselves", outcome.gave_up));
    }
    let least = [outcome.events, counts.acknowledged, counts.refused, counts.closed].into_iter().min();
    if least == Some(0) {
        return Err("the run shows nothing: nothing failed, or nothing was acknowledged, refused or closed".into());
    }
    Ok(())
}

fn report(fault: Fault, outcome: &Outcome, counts: Counts) {
    let Counts { logs, steps, acknowledged, besides, closed, refused, refusals } = counts;
    let (name, kinds) = (fault.name(), refusals.count_ones());
    println!("faults: {name}: {} {}, {steps} rows in {logs} logs", outcome.events, fault.events());
    println!("faults: {name}: each of {acknowledged} acknowledged writes is there once, and {besides} besides");
    println!("faults: {name}: {closed} closed ledgers hold what they held");
    println!("faults: {name}: {refused} refusals, by {kinds} numbers, are what the model gives at their row");
    let unknown = outcome.unknown;
    println!("faults: {name}: {unknown} times a controller was not told whether its last step is stored");
    if let Some((wait, moments)) = &outcome.longest {
        println!("faults: {name}: the longest call of the others took {:.2} s", wait.time().as_secs_f64());
        for &(at, what) in moments {
            let after = (at as f64 - BEFORE as f64) / 1e6;
            println!("faults: {name}:   {after:+.2} s: {what}");
        }
    }
}

/// A wrong server, of which the audit has to find that it is, and for the right reason.
fn control(fault: Fault, seed: u64) -> Result<(), String> {
    let name = fault.name();
    for round in 0..CONTROL_ROUNDS {
        let Outcome { events, audited, lost, .. } = run(fault, CONTROL_TIME, seed + round)?;
        let what = fault.events();
        match audited {
            // A server that stores twice loses nothing.
            Err(why) if lost > 0 || fault == Fault::Twice => {
                println!("faults: the control {name} fails, as it must, after {events} {what}: {why}");
                println!("faults: {name}: {lost} acknowledged writes are in no log");
                return Ok(());
            }
            _ => {}
        }
    }
    Err("the control did not fail, so this test would not find what is wrong with it".into())
}
