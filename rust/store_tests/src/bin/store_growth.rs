//! How the cost of a log in a file grows with processes, with the time of a sync, with rows and with entries: tables, and a
//! picture of them.

use plot::{Line, Panel};
use std::path::{Path, PathBuf};
use std::process::ExitCode;
use store::{Error, Store};
use store_tests::growth::{self, Options, Point, grow, micros, millis, panel_of_micros};
use store_tests::long::{Long, ROWS};
use store_tests::machine::machine;
use store_tests::measured::{PLAIN, measured, work};
use store_tests::plain::Plain;
use store_tests::processes::WORKER;
use store_tests::reads;
use store_tests::scratch::Scratch;
use store_tests::sides::{BESIDE, STORE, rate};

const USAGE: &str = "usage: store_growth [--seconds N] [--plot FILE] [--folder FOLDER]";

const PROCESSES: [usize; 5] = [1, 2, 4, 8, 16];
/// How much longer a sync takes, in microseconds.
const DELAYS: [u64; 6] = [0, 250, 500, 1_000, 2_000, 5_000];
/// Up to those of a full log.
const ENTRIES: [u64; 5] = [256, 512, 1_024, 2_048, 4_096];

fn main() -> ExitCode {
    let words: Vec<String> = std::env::args().skip(1).collect();
    let words: Vec<&str> = words.iter().map(String::as_str).collect();
    let result = match words[..] {
        [WORKER, ref words @ ..] => work(words),
        _ => measure(&words),
    };
    match result {
        Ok(()) => ExitCode::SUCCESS,
        Err(why) => {
            eprintln!("store_growth: {why}");
            ExitCode::FAILURE
        }
    }
}

fn measure(words: &[&str]) -> Result<(), String> {
    let mut folder = std::env::temp_dir();
    let options = growth::options(words, USAGE, |name, text| {
        let is_folder = name == "--folder";
        if is_folder {
            folder = PathBuf::from(text);
        }
        is_folder
    })?;
    all(&options, &folder)
}

fn all(options: &Options, folder: &Path) -> Result<(), String> {
    println!("{}", machine(folder));
    let sides = |processes, delay| {
        let sides = measured(options.seconds, folder, processes, delay, PLAIN)?;
        Ok([STORE, BESIDE].map(|side| rate(&sides, side, options.seconds)))
    };
    let (processes, sync) = ("processes that write to one log", "µs that a sync takes longer");
    let of_processes = grow(processes, "µs a write", micros, &PROCESSES, |processes| sides(processes, 0))?;
    let of_sync = grow(sync, "µs a write", micros, &DELAYS, |delay| sides(1, delay))?;
    let (steps, whole) = rows(options.seconds, folder).map_err(|error| error.to_string())?;
    let (times, sizes) = entries(folder).map_err(|error| error.to_string())?;
    let of_processes = panel_of_micros(processes, "µs a write", &of_processes);
    let of_sync = Panel { even: false, ..panel_of_micros(sync, "µs a write", &of_sync) };
    let of_steps = panel_of_micros("rows in the log", "µs a step, or a plain write", &steps);
    growth::save(options, &[of_processes, of_sync, of_steps, whole, times, sizes])
}

/// A panel on a scale, whose lines have a column each, by rising x.
fn panel<const N: usize>(
    title: &'static str,
    unit: &'static str,
    names: [&'static str; N],
    at: &[(f64, [f64; N])],
) -> Panel {
    let line = |column: usize| at.iter().map(|&(x, ys)| (x, ys[column])).collect();
    let lines = names.into_iter().enumerate().map(|(column, name)| Line { name, points: line(column) }).collect();
    Panel { title, unit, decimals: 0, even: false, lines }
}

/// What a step takes in a log of so many rows, and what takes all of them.
fn rows(seconds: u64, folder: &Path) -> Result<(Vec<Point>, Panel), Error> {
    println!(
        "\n| Rows | Plain, µs a write | Store, µs a step | Store / plain | {WHOLE} | File, bytes a row | Archive, bytes a row |"
    );
    println!("|---|---|---|---|---|---|---|---|---|---|");
    let (mut steps, mut whole) = (Vec::new(), Vec::new());
    for rows in ROWS {
        let (room, x) = (Scratch::below(folder), rows as f64);
        let mut long = Long::create(room.file("long.db"), rows)?;
        let took = Whole::of(&mut long.store, &room)?;
        let mut table = Plain::open(&room.file("plain.db"))?;
        let [store, plain] = long.beside(seconds, || table.write(0).expect("a row"))?;
        println!(
            "| {rows} | {:.0} | {:.0} | {:.2} | {} | {:.0} | {:.0} |",
            micros(plain),
            micros(store),
            store / plain,
            took.columns(),
            took.file_bytes / x,
            took.archive_bytes / x,
        );
        steps.push(Point { x, store, plain });
        whole.push((x, took.times));
    }
    Ok((steps, panel("rows in the log", "ms", TIMES, &whole)))
}

/// What takes a whole log, and its columns.
const TIMES: [&str; 4] = ["opening", "check", "archive", "restore"];
const WHOLE: &str = "Opening, ms | Check, ms | Archive, ms | Restore, ms";

/// The milliseconds of what takes a whole log, and its bytes.
struct Whole {
    times: [f64; 4],
    file_bytes: f64,
    archive_bytes: f64,
}

impl Whole {
    fn columns(&self) -> String {
        self.times.map(|time| format!("{time:.1}")).join(" | ")
    }

    fn of(store: &mut Store, room: &Scratch) -> Result<Whole, Error> {
        let (path, archive, again) = (store.path().to_owned(), room.file("run.archive"), room.file("again.db"));
        // The file has all rows once the journal beside it is copied.
        store.checkpoint()?;
        let removed = |path: &Path| {
            let _ = std::fs::remove_file(path);
            Ok(())
        };
        let size = |path: &Path| std::fs::metadata(path).map_or(0.0, |file| file.len() as f64);
        let opening = millis(|| Ok(()), |()| Store::open(&path).map(drop))?;
        let check = millis(|| Ok(()), |()| store.check().map(drop))?;
        let archiving = millis(|| removed(&archive), |()| store.archive_to(&archive))?;
        let bytes = std::fs::read(&archive).map_err(|error| Error::File(error.to_string()))?;
        let restore = millis(|| removed(&again), |()| Store::restore(&bytes, &again))?;
        assert_eq!(Store::open(&again)?.latest()?.last_row(), store.latest()?.last_row());
        let times = [opening, check, archiving, restore];
        Ok(Whole { times, file_bytes: size(&path), archive_bytes: bytes.len() as f64 })
    }
}

/// What takes a whole log of reads, from few entries to as many as there can be.
fn entries(folder: &Path) -> Result<(Panel, Panel), Error> {
    println!("\n| Entries | {WHOLE} | File, bytes | Archive, bytes |");
    println!("|---|---|---|---|---|---|---|");
    let (mut times, mut sizes) = (Vec::new(), Vec::new());
    for entries in ENTRIES {
        let room = Scratch::below(folder);
        let mut store = reads::create(&room.file("run.db"), entries)?;
        let took = Whole::of(&mut store, &room)?;
        println!("| {entries} | {} | {:.0} | {:.0} |", took.columns(), took.file_bytes, took.archive_bytes);
        times.push((entries as f64, took.times));
        sizes.push((entries as f64, [took.file_bytes / 1e3, took.archive_bytes / 1e3]));
    }
    let title = "entries in the log";
    let times = panel(title, "ms", TIMES, &times);
    Ok((times, panel(title, "kB", ["the file", "the archive"], &sizes)))
}
