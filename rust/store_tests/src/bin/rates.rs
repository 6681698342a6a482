//! Acknowledged writes a second, by the store and by plain SQLite, and one by one and in requests of many: every 100 ms
//! all processes change from one to the other.

use cindrolf::{Answer, Log, Rights, Step};
use std::path::{Path, PathBuf};
use std::process::ExitCode;
use std::time::{Duration, Instant};
use store_tests::measured::{PLAIN, REQUESTS, measured, work};
use store_tests::processes::WORKER;
use store_tests::rotating::MANY;
use store_tests::sides::{BESIDE, STORE, jain, longest, rate};

const USAGE: &str = "usage: rates [--seconds N] [--folder FOLDER]";

fn main() -> ExitCode {
    let words: Vec<String> = std::env::args().skip(1).collect();
    let words: Vec<&str> = words.iter().map(String::as_str).collect();
    let result = match words[..] {
        [WORKER, ref words @ ..] => work(words),
        _ => options(&words).and_then(|(seconds, folder)| table(seconds, &folder)),
    };
    match result {
        Ok(()) => ExitCode::SUCCESS,
        Err(why) => {
            eprintln!("rates: {why}");
            ExitCode::FAILURE
        }
    }
}

fn options(words: &[&str]) -> Result<(u64, PathBuf), String> {
    let (mut seconds, mut folder) = (20, std::env::temp_dir());
    for pair in words.chunks(2) {
        match *pair {
            ["--seconds", text] => seconds = text.parse().map_err(|_| USAGE)?,
            ["--folder", text] => folder = text.into(),
            _ => return Err(USAGE.into()),
        }
    }
    Ok((seconds, folder))
}

fn table(seconds: u64, folder: &Path) -> Result<(), String> {
    println!("The proved step alone takes {} ns, over a log that fills up.", proved_step().as_nanos());
    println!("| Processes | A sync takes longer by | Plain | Store | Store / plain | Jain's index | Longest wait |");
    println!("|---|---|---|---|---|---|---|");
    for delay in [0, 1_000] {
        for processes in [1, 16] {
            row(seconds, folder, processes, delay)?;
        }
    }
    println!("\n| A sync takes longer by | One by one | In requests of {MANY} | Times |\n|---|---|---|---|");
    for delay in [0, 1_000] {
        let sides = measured(seconds, folder, 1, delay, REQUESTS)?;
        let [single, many] = [STORE, BESIDE].map(|side| rate(&sides, side, seconds));
        println!("| {delay} µs | {single:.0} | {many:.0} | {:.0} |", many / single);
    }
    Ok(())
}

fn row(seconds: u64, folder: &Path, processes: usize, delay: u64) -> Result<(), String> {
    let sides = measured(seconds, folder, processes, delay, PLAIN)?;
    let [store, plain] = [STORE, BESIDE].map(|side| rate(&sides, side, seconds));
    println!(
        "| {processes} | {delay} µs | {plain:.0} | {store:.0} | {:.2} | {:.2} | {} ms |",
        store / plain,
        jain(&sides, STORE),
        longest(&sides, STORE).as_millis()
    );
    Ok(())
}

/// What the library takes for a write under rights, over the fill of a whole log.
fn proved_step() -> Duration {
    let mut log = Log::fresh(16).expect("sixteen clients");
    let rights = Rights::all(16).expect("sixteen clients");
    for step in [Step::BECOME, Step::FETCH, Step::CREATE, Step::APPEND] {
        assert_eq!(log.take(0, step), Ok(Answer::Done));
    }
    let began = Instant::now();
    let writes = (0..).take_while(|&value| log.under(&rights).write(0, value).is_ok()).count();
    began.elapsed() / writes as u32
}
