//! Runs seeds for a time; then the judge has to find every planted mistake.

use simulator::fault::Fault;
use simulator::world::{Summary, run};
use std::process::ExitCode;
use std::time::{Duration, Instant};

const USAGE: &str = "usage: simulate [--seconds N] [--seed N] [--run SEED]";

/// How many runs a planted mistake may pass before it counts as not found.
const MOST_RUNS: u64 = 20_000;

fn main() -> ExitCode {
    let words: Vec<String> = std::env::args().skip(1).collect();
    match options(&words).and_then(|(seconds, seed, only)| test(seconds, seed, only)) {
        Ok(()) => ExitCode::SUCCESS,
        Err(why) => {
            eprintln!("simulate: {why}");
            ExitCode::FAILURE
        }
    }
}

fn options(words: &[String]) -> Result<(u64, u64, Option<u64>), String> {
    let (mut seconds, mut seed, mut only) = (20, 1, None);
    for pair in words.chunks(2) {
        let [name, text] = pair else { return Err(USAGE.into()) };
        let number = text.parse().map_err(|_| format!("'{text}' is no number\n{USAGE}"))?;
        match name.as_str() {
            "--seconds" => seconds = number,
            "--seed" => seed = number,
            "--run" => only = Some(number),
            _ => return Err(USAGE.into()),
        }
    }
    Ok((seconds, seed, only))
}

fn test(seconds: u64, seed: u64, only: Option<u64>) -> Result<(), String> {
    if let Some(seed) = only {
        let summary = run(seed, None).map_err(|why| format!("seed {seed}: {why}"))?;
        println!("simulate: seed {seed}: {summary:?}");
        return Ok(());
    }
    let (sum, runs) = sound(Duration::from_secs(seconds), seed)?;
    report(sum, runs, seed);
    for fault in Fault::ALL {
        planted(fault, seed)?;
    }
    Ok(())
}

/// Runs one seed after another until the time is over.
fn sound(time: Duration, seed: u64) -> Result<(Summary, u64), String> {
    let begun = Instant::now();
    let (mut sum, mut runs, mut told) = (Summary::default(), 0, begun);
    while runs == 0 || begun.elapsed() < time {
        let seed = seed + runs;
        let summary = run(seed, None).map_err(|why| format!("seed {seed}: {why} (simulate --run {seed})"))?;
        add(&mut sum, summary);
        runs += 1;
        if told.elapsed() > Duration::from_secs(60) {
            eprintln!("simulate: {runs} runs so far, {} s left", (time - begun.elapsed().min(time)).as_secs());
            told = Instant::now();
        }
    }
    Ok((sum, runs))
}

fn add(sum: &mut Summary, one: Summary) {
    sum.counts.rows += one.counts.rows;
    sum.counts.told += one.counts.told;
    sum.counts.refused_in_place += one.counts.refused_in_place;
    sum.counts.denied += one.counts.denied;
    sum.counts.forgotten += one.counts.forgotten;
    sum.crashes += one.crashes;
    sum.failovers += one.failovers;
    sum.losses += one.losses;
    sum.halted += one.halted;
    sum.turns = sum.turns.max(one.turns);
}

fn report(sum: Summary, runs: u64, seed: u64) {
    let Summary { counts, crashes, failovers, losses, halted, turns } = sum;
    println!("simulate: {runs} runs from seed {seed} on, no promise broken");
    println!(
        "simulate: {} rows, {} requests told, {} single steps refused in their place, {} refused without a row, {} forgotten",
        counts.rows, counts.told, counts.refused_in_place, counts.denied, counts.forgotten
    );
    println!(
        "simulate: {crashes} crashes, {failovers} failovers that kept all rows, {losses} that lost some, {halted} controllers \
         that found it; told within {turns} turns"
    );
}

/// A planted mistake, which has to break a promise in some run.
fn planted(fault: Fault, seed: u64) -> Result<(), String> {
    for runs in 0..MOST_RUNS {
        if let Err(why) = run(seed + runs, Some(fault)) {
            println!("simulate: {fault:?} is found after {} runs: {why}", runs + 1);
            return Ok(());
        }
    }
    Err(format!("{fault:?} was not found in {MOST_RUNS} runs, so this test would not find what is wrong with it"))
}
