//! Kills and stops processes that share logs, at any moment, and checks that no acknowledged write is lost and that
//! every refusal is right.

use model::random::Random;
use std::path::Path;
use std::process::ExitCode;
use std::time::{Duration, Instant};
use store_tests::audit::{self, Counts};
use store_tests::journal;
use store_tests::place::Place;
use store_tests::processes::{PROCESSES, Processes, WORKER, work};
use store_tests::scratch::Scratch;
use store_tests::worker::Mode;

/// How often the time is given again where no process was killed between a commit and its answer.
const MOST_ROUNDS: u64 = 3;

/// How long a process is stopped, in microseconds, and how long one in twenty is. The others wait ten seconds for a lock.
const STOPPED: u64 = 20_000;
const STOPPED_LONG: u64 = 1_000_000;

/// How long a control may take to fail, in rounds of a few seconds.
const CONTROL_ROUNDS: u64 = 8;
const CONTROL_TIME: Duration = Duration::from_secs(3);

const USAGE: &str = "usage: killing [--seconds N] [--seed N] [--folder FOLDER]";

fn main() -> ExitCode {
    let words: Vec<String> = std::env::args().skip(1).collect();
    let words: Vec<&str> = words.iter().map(String::as_str).collect();
    let result = match words[..] {
        [WORKER, ref words @ ..] => return work(words),
        _ => options(&words).and_then(|(seconds, seed, folder)| test(seconds, seed, &folder)),
    };
    match result {
        Ok(()) => ExitCode::SUCCESS,
        Err(why) => {
            eprintln!("killing: {why}");
            ExitCode::FAILURE
        }
    }
}

fn options(words: &[&str]) -> Result<(u64, u64, String), String> {
    let (mut seconds, mut folder) = (30, std::env::temp_dir().display().to_string());
    let now = std::time::SystemTime::now().duration_since(std::time::UNIX_EPOCH).map_or(0, |now| now.as_secs());
    let mut seed = now % 1_000_000;
    for pair in words.chunks(2) {
        let number = |text: &str| text.parse::<u64>().map_err(|_| format!("'{text}' is no number\n{USAGE}"));
        match *pair {
            ["--seconds", text] => seconds = number(text)?.max(1),
            ["--seed", text] => seed = number(text)?,
            ["--folder", text] => folder = text.to_owned(),
            _ => return Err(USAGE.into()),
        }
    }
    Ok((seconds, seed, folder))
}

fn test(seconds: u64, seed: u64, folder: &str) -> Result<(), String> {
    println!("killing: {PROCESSES} processes for {seconds} s, seed {seed}");
    let mut random = Random::new(seed);
    let folder = Path::new(folder);
    let scratch = Scratch::below(folder);
    let (mut kills, mut stops, mut counts) = (0, 0, Counts::default());
    for _ in 0..MOST_ROUNDS {
        let done = disturb(scratch.folder(), Mode::Sound, Duration::from_secs(seconds), &mut random)?;
        (kills, stops) = (kills + done.0, stops + done.1);
        counts = audit(scratch.folder(), Mode::Sound)?;
        if counts.besides > 0 {
            break;
        }
    }
    report(kills, stops, counts);
    let least = [kills, stops, counts.acknowledged, counts.besides, counts.refused].into_iter().min();
    if least == Some(0) {
        let what = "nobody was killed or stopped, or nothing was acknowledged, stored besides or refused";
        return Err(format!("the run shows nothing: {what}"));
    }
    for mode in [Mode::AnswersEarly, Mode::CommitsWords, Mode::RefusesFromMemory] {
        control(folder, mode, &mut random)?;
    }
    Ok(())
}

fn report(kills: u64, stops: u64, counts: Counts) {
    let Counts { logs, steps, acknowledged, besides, closed, refused, refusals } = counts;
    let kinds = refusals.count_ones();
    println!("killing: {kills} kills and {stops} stops, {steps} steps in {logs} logs");
    println!("killing: each of {acknowledged} acknowledged writes is there once, and {besides} besides");
    println!("killing: {closed} closed ledgers hold what they held");
    println!("killing: {refused} refusals, by {kinds} numbers, are what the model gives at their row");
}

/// A wrong store, of which the audit has to find that it is.
fn control(folder: &Path, mode: Mode, random: &mut Random) -> Result<(), String> {
    for _ in 0..CONTROL_ROUNDS {
        let scratch = Scratch::below(folder);
        disturb(scratch.folder(), mode, CONTROL_TIME, random)?;
        if let Err(why) = audit(scratch.folder(), mode) {
            println!("killing: the control {} fails, as it must: {why}", mode.name());
            return Ok(());
        }
    }
    Err(format!("the control {} did not fail, so this test would not find what is wrong with it", mode.name()))
}

fn audit(folder: &Path, mode: Mode) -> Result<Counts, String> {
    let place = Place::new(folder, None);
    audit::audit(&place, PROCESSES, mode, &|log| journal::of_file(&place.log(log)))
}

/// Has processes work in a folder for a time, kills and stops them at any moment, and kills all at the end. Says how many
/// it killed and stopped before that.
fn disturb(folder: &Path, mode: Mode, time: Duration, random: &mut Random) -> Result<(u64, u64), String> {
    let end = Instant::now() + time;
    let places = vec![Place::new(folder, None); PROCESSES as usize];
    let mut processes = Processes::start(places, mode, false, random)?;
    let (mut stops, mut told) = (0, Instant::now());
    while Instant::now() < end {
        processes.wake()?;
        let number = processes.choose(random);
        if random.chance(35) {
            let longest = if random.chance(5) { STOPPED_LONG } else { STOPPED };
            processes.stop(number, Duration::from_micros(random.below(longest)))?;
            stops += 1;
        } else {
            processes.kill(number, random)?;
        }
        std::thread::sleep(Duration::from_micros(random.below(20_000)));
        if told.elapsed() > Duration::from_secs(60) {
            let left = end.saturating_duration_since(Instant::now()).as_secs();
            eprintln!("killing: {} kills and {stops} stops so far, {left} s left", processes.kills);
            told = Instant::now();
        }
    }
    Ok((processes.kills, stops))
}
