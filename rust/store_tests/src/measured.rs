//! A measured run: processes use the store and something else in turn, each for a slot of the clock that all share.

use crate::calls;
use crate::plain::Plain;
use crate::processes::WORKER;
use crate::rotating::Logs;
use crate::scratch::Scratch;
use crate::sides::{STORE, Side, side_at};
use std::path::Path;
use std::process::{Child, Command, Stdio};
use std::time::{Duration, Instant, SystemTime, UNIX_EPOCH};
use store::Error;

/// The store's single writes are compared with plain SQLite.
pub const PLAIN: &str = "plain";
/// They are compared with the store's own requests of many.
pub const REQUESTS: &str = "requests";

/// How long processes may take to start and to open what they use, before they are measured.
const STARTED: Duration = Duration::from_secs(1);

/// Measures for some seconds what each of the processes does on each side. A sync takes longer by so many microseconds.
pub fn measured(
    seconds: u64,
    folder: &Path,
    processes: usize,
    delay: u64,
    beside: &str,
) -> Result<Vec<[Side; 2]>, String> {
    let scratch = Scratch::below(folder);
    let from = since_epoch() + STARTED;
    let start = |_| start(scratch.folder(), [from.as_millis() as u64, seconds, delay], beside);
    let children = (0..processes).map(start).collect::<Result<Vec<_>, _>>()?;
    children.into_iter().map(result_of).collect()
}

fn start(folder: &Path, numbers: [u64; 3], beside: &str) -> Result<Child, String> {
    let program = std::env::current_exe().map_err(|error| error.to_string())?;
    let mut command = Command::new(program);
    command.arg(WORKER).arg(folder).args(numbers.map(|number| number.to_string())).arg(beside);
    command.stdout(Stdio::piped()).spawn().map_err(|error| error.to_string())
}

fn result_of(child: Child) -> Result<[Side; 2], String> {
    let output = child.wait_with_output().map_err(|error| error.to_string())?;
    let text = String::from_utf8_lossy(&output.stdout);
    let numbers: Vec<u64> = text.split_whitespace().filter_map(|word| word.parse().ok()).collect();
    match numbers[..] {
        [store, store_longest, plain, plain_longest] if output.status.success() => Ok([
            Side { writes: store, longest: Duration::from_micros(store_longest) },
            Side { writes: plain, longest: Duration::from_micros(plain_longest) },
        ]),
        _ => Err(format!("a process ended with {}", output.status)),
    }
}

/// What one of the processes does, by the words after [`WORKER`]. It prints what [`measured`] reads.
pub fn work(words: &[&str]) -> Result<(), String> {
    let &[folder, from, seconds, delay, beside] = words else { return Err("a process is told too little".into()) };
    let number = |text: &str| text.parse::<u64>().map_err(|error| error.to_string());
    calls::delay_sync(Duration::from_micros(number(delay)?));
    let time = [Duration::from_millis(number(from)?), Duration::from_secs(number(seconds)?)];
    let [store, other] = sides(Path::new(folder), time, beside).map_err(|error| error.to_string())?;
    let micros = |side: Side| side.longest.as_micros();
    println!("{} {} {} {}", store.writes, micros(store), other.writes, micros(other));
    Ok(())
}

/// Writes in turn, each for a slot of the clock that all share, by the store, one by one, and by plain SQLite or in requests
/// of many: from a moment since 1970 on, and for so long.
fn sides(folder: &Path, [from, time]: [Duration; 2], beside: &str) -> Result<[Side; 2], Error> {
    let mut logs = Logs::open(folder.join("log"), 0)?;
    let mut others = Logs::open(folder.join("other"), 0)?;
    let mut plain = Plain::open(&folder.join("plain.db"))?;
    std::thread::sleep(from.saturating_sub(since_epoch()));
    let mut sides = [Side::default(); 2];
    loop {
        let gone = since_epoch().saturating_sub(from);
        if gone >= time {
            return Ok(sides);
        }
        let (side, began) = (side_at(gone), Instant::now());
        let value = sides[side].writes;
        let writes = match (side, beside) {
            (STORE, _) => logs.write(value).map(|()| 1)?,
            (_, PLAIN) => plain.write(value).map(|()| 1)?,
            _ => others.write_many(value)?,
        };
        sides[side].add(writes, began.elapsed());
    }
}

fn since_epoch() -> Duration {
    SystemTime::now().duration_since(UNIX_EPOCH).expect("a clock past 1970")
}
