//! Acknowledged writes a second, by the store on a server and by plain inserts through libpq: every 100 ms all writers
//! change from one to the other.

use cindrolf_server_tests::measured::{Beside, Setup, measured, server};
use cindrolf_server_tests::programs;
use std::process::ExitCode;
use std::time::Duration;
use store_tests::machine::machine;
use store_tests::rotating::MANY;
use store_tests::sides::{BESIDE, STORE, jain, longest, rate};

const USAGE: &str = "usage: server_rates [--seconds N] [--row N]";

/// The status of a test that cannot be made here.
const SKIPPED: u8 = 77;

/// The network's way to the server, and back.
const HALF: Duration = Duration::from_micros(500);

/// What a disk without a memory of its own takes, on top of a fast one.
const SLOW: Duration = Duration::from_millis(4);

fn main() -> ExitCode {
    if let Some(why) = programs::missing() {
        eprintln!("SKIPPED: rates on a server: {why}");
        return ExitCode::from(SKIPPED);
    }
    let words: Vec<String> = std::env::args().skip(1).collect();
    let words: Vec<&str> = words.iter().map(String::as_str).collect();
    match options(&words).and_then(tables) {
        Ok(()) => ExitCode::SUCCESS,
        Err(why) => {
            eprintln!("server_rates: {why}");
            ExitCode::FAILURE
        }
    }
}

/// How long each row is measured, and which one, if not all.
fn options(words: &[&str]) -> Result<(u64, Option<usize>), String> {
    let (mut seconds, mut only) = (20, None);
    for pair in words.chunks(2) {
        let number = |text: &str| text.parse().ok().filter(|&number| number > 0).ok_or(USAGE);
        match *pair {
            ["--seconds", text] => seconds = number(text)?,
            ["--row", text] => only = Some(number(text)? as usize),
            _ => return Err(USAGE.into()),
        }
    }
    Ok((seconds, only))
}

/// A row of the table, with what is wanted of its ratio: at least, and at best.
struct Row {
    name: &'static str,
    setup: Setup,
    wanted: Option<(f64, Option<f64>)>,
}

/// Every row, by its name.
fn rows() -> [Row; 10] {
    let own = |writers| Setup { writers, own_logs: true, ..Setup::ONE };
    let followers = |beside| Setup { followers: 15, beside, ..Setup::ONE };
    let row = |name, setup, wanted| Row { name, setup, wanted };
    [
        row("1", Setup::ONE, Some((0.65, Some(0.8)))),
        row("1, the server 0.5 ms away each way", Setup { delay: HALF, ..Setup::ONE }, Some((0.8, Some(0.9)))),
        row("1, and 15 that look every 10 ms, plain none", followers(Beside::Plain), Some((0.5, Some(0.7)))),
        row("1, and 15 that look every 10 ms, plain too", followers(Beside::Followed), None),
        row("16, of one log", Setup { writers: 16, ..Setup::ONE }, None),
        row("1, of a log", own(1), Some((0.8, None))),
        row("16, of 16 logs", own(16), Some((0.8, None))),
        row("128, of 128 logs", own(128), Some((0.8, None))),
        row("1, a sync takes 4 ms more", Setup { sync: SLOW, ..Setup::ONE }, Some((0.65, Some(0.8)))),
        row("16, of 16 logs, a sync takes 4 ms more", Setup { sync: SLOW, ..own(16) }, Some((0.8, None))),
    ]
}

fn tables((seconds, only): (u64, Option<usize>)) -> Result<(), String> {
    println!("{}", machine(&std::env::temp_dir()));
    let cluster = server();
    let time = Duration::from_secs(seconds);
    println!("\n| Writers | Plain | Store | Store / plain | At least | Goal | Jain's index | Longest wait |");
    println!("|---|---|---|---|---|---|---|---|");
    for (number, row) in (1..).zip(&rows()).filter(|(number, _)| only.is_none_or(|only| only == *number)) {
        let sides = measured(&cluster, row.setup, &format!("row-{number}"), time)?;
        let [store, plain] = [STORE, BESIDE].map(|side| rate(&sides, side, seconds));
        let wanted = |wanted: Option<f64>| wanted.map_or_else(String::new, |wanted| wanted.to_string());
        let (least, goal) = (wanted(row.wanted.map(|wanted| wanted.0)), wanted(row.wanted.and_then(|wanted| wanted.1)));
        let (ratio, jain) = (store / plain, jain(&sides, STORE));
        let wait = longest(&sides, STORE).as_millis();
        println!("| {} | {plain:.0} | {store:.0} | {ratio:.2} | {least} | {goal} | {jain:.3} | {wait} ms |", row.name);
    }
    if only.is_some() {
        return Ok(());
    }
    let sides = measured(&cluster, Setup { beside: Beside::Requests, ..Setup::ONE }, "requests", time)?;
    let [single, many] = [STORE, BESIDE].map(|side| rate(&sides, side, seconds));
    println!("\n| One by one | In requests of {MANY} | Times | At least |\n|---|---|---|---|");
    println!("| {single:.0} | {many:.0} | {:.1} | 20 |", many / single);
    Ok(())
}
