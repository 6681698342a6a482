//! How the cost of a log on a server grows with followers, delay, logs and rows: tables, and a picture of them. The picture
//! shows how many times as long as plain inserts of the same moments it takes, which a busy computer changes little.

use cindrolf_server_tests::cluster::Cluster;
use cindrolf_server_tests::measured::{Setup, measured, server};
use cindrolf_server_tests::plain::Plain;
use cindrolf_server_tests::programs;
use std::process::ExitCode;
use std::time::Duration;
use store::{Error, Store};
use store_tests::growth::{self, Options, Point, grow, micros, millis, panel_of_times};
use store_tests::long::{Long, ROWS};
use store_tests::machine::machine;
use store_tests::sides::{BESIDE, STORE, rate};

const USAGE: &str = "usage: server_growth [--seconds N] [--plot FILE]";

/// The status of a test that cannot be made here.
const SKIPPED: u8 = 77;

const FOLLOWERS: [usize; 6] = [0, 1, 3, 7, 15, 31];
/// Each way, in microseconds.
const DELAYS: [u64; 6] = [0, 250, 500, 1_000, 2_500, 5_000];
const LOGS: [usize; 8] = [1, 2, 4, 8, 16, 32, 64, 128];

fn main() -> ExitCode {
    if let Some(why) = programs::missing() {
        eprintln!("SKIPPED: growth on a server: {why}");
        return ExitCode::from(SKIPPED);
    }
    let words: Vec<String> = std::env::args().skip(1).collect();
    let words: Vec<&str> = words.iter().map(String::as_str).collect();
    match growth::options(&words, USAGE, |_, _| false).and_then(|options| all(&options)) {
        Ok(()) => ExitCode::SUCCESS,
        Err(why) => {
            eprintln!("server_growth: {why}");
            ExitCode::FAILURE
        }
    }
}

fn all(options: &Options) -> Result<(), String> {
    println!("{}", machine(&std::env::temp_dir()));
    let (cluster, seconds) = (server(), options.seconds);
    let followers = "followers that look every 10 ms";
    let of_followers = grow(followers, "µs a write", micros, &FOLLOWERS, |followers| {
        sides(&cluster, Setup { followers, ..Setup::ONE }, &format!("followers-{followers}"), seconds)
    })?;
    let delay = "µs to the server, each way";
    let of_delay = grow(delay, "µs a write", micros, &DELAYS, |delay| {
        let setup = Setup { delay: Duration::from_micros(delay), ..Setup::ONE };
        sides(&cluster, setup, &format!("delay-{delay}"), seconds)
    })?;
    let logs = "logs, with a writer each";
    let whole = |rate| rate;
    let of_logs = grow(logs, "writes a second", whole, &LOGS, |writers| {
        let setup = Setup { writers, own_logs: true, ..Setup::ONE };
        sides(&cluster, setup, &format!("logs-{writers}"), seconds)
    })?;
    let of_rows = rows(&cluster, seconds).map_err(|error| error.to_string())?;
    let panels = [(followers, of_followers), (delay, of_delay), (logs, of_logs), ("rows in the log", of_rows)];
    growth::save(options, &panels.map(|(title, points)| panel_of_times(title, &points)))
}

/// Writes a second by the store, and plain.
fn sides(cluster: &Cluster, setup: Setup, name: &str, seconds: u64) -> Result<[f64; 2], String> {
    let sides = measured(cluster, setup, name, Duration::from_secs(seconds))?;
    Ok([STORE, BESIDE].map(|side| rate(&sides, side, seconds)))
}

/// What opening takes in a log of so many rows, and then a step.
fn rows(cluster: &Cluster, seconds: u64) -> Result<Vec<Point>, Error> {
    let elects = "CREATE ROLE elects LOGIN; GRANT cindrolf_controller TO elects; SELECT cindrolf.admit('elects', -2)";
    cluster.sql(elects).expect("a role");
    let mut table = Plain::open(cluster.port()).expect("a connection");
    println!("\n| Rows | Plain, µs a write | Store, µs a step | Store / plain | Opening, ms | Bytes a row |");
    println!("|---|---|---|---|---|---|");
    let mut points = Vec::new();
    for rows in ROWS {
        let address = cluster.address("elects", &format!("long-{rows}"));
        let mut long = Long::create(&address, rows)?;
        let opening = millis(|| Ok(()), |()| Store::open(&address).map(drop))?;
        let size = "SELECT pg_total_relation_size('cindrolf.rows') / (SELECT count(*) FROM cindrolf.rows)";
        let size = cluster.sql(size).expect("a size");
        let [store, plain] = long.beside(seconds, || table.write(0).expect("a row"))?;
        let [of_plain, of_store] = [plain, store].map(micros);
        println!("| {rows} | {of_plain:.0} | {of_store:.0} | {:.2} | {opening:.0} | {size} |", store / plain);
        points.push(Point { x: rows as f64, store, plain });
    }
    Ok(points)
}
