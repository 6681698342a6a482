//! How long commands take from start to exit: command_times PROGRAM SESSION. In each round every command is called
//! once, so that what slows the computer slows all of them.

use cindrolf::Capacity;
use std::ffi::{OsStr, OsString};
use std::path::{Path, PathBuf};
use std::process::{Command, ExitCode, Stdio};
use std::time::{Duration, Instant};
use store::{Error, Store};
use store_tests::long::Long;
use store_tests::machine::machine;
use store_tests::reads;
use store_tests::scratch::Scratch;

const ROUNDS: usize = 20;

/// How many rows the long log has.
const LONG: i64 = 100_000;

fn main() -> ExitCode {
    let words: Vec<PathBuf> = std::env::args_os().skip(1).map(PathBuf::from).collect();
    let [program, session] = &words[..] else {
        eprintln!("usage: command_times PROGRAM SESSION");
        return ExitCode::from(2);
    };
    match table(program, session) {
        Ok(()) => ExitCode::SUCCESS,
        Err(why) => {
            eprintln!("command_times: {why}");
            ExitCode::FAILURE
        }
    }
}

fn table(program: &Path, session: &Path) -> Result<(), String> {
    let room = Scratch::new();
    println!("{}", machine(&std::env::temp_dir()));
    let mut commands = commands(&room, session).map_err(|error| error.to_string())?;
    for _ in 0..ROUNDS {
        for command in &mut commands {
            let time = command.call(program)?;
            command.times.push(time);
        }
    }
    println!("\n| Command | Best, ms | Median, ms | Worst, ms |\n|---|---|---|---|");
    for Timed { name, mut times, .. } in commands {
        times.sort();
        // Of an even number, the median is between the two in the middle.
        let middle = (times[(ROUNDS - 1) / 2] + times[ROUNDS / 2]) / 2;
        let [best, median, worst] = [times[0], middle, times[ROUNDS - 1]].map(|time| time.as_secs_f64() * 1e3);
        println!("| {name} | {best:.1} | {median:.1} | {worst:.1} |");
    }
    Ok(())
}

/// A command that is timed.
struct Timed {
    name: &'static str,
    words: Vec<OsString>,
    /// What its output has.
    says: &'static str,
    /// The file that it makes, which is taken away before it is called.
    makes: Option<PathBuf>,
    times: Vec<Duration>,
}

impl Timed {
    fn new(name: &'static str, words: &[&dyn AsRef<OsStr>], says: &'static str) -> Timed {
        let words = words.iter().map(|word| word.as_ref().to_owned()).collect();
        Timed { name, words, says, makes: None, times: Vec::new() }
    }

    fn making(self, file: PathBuf) -> Timed {
        Timed { makes: Some(file), ..self }
    }

    /// Calls it, and says how long it took, once it has done what it should.
    fn call(&self, program: &Path) -> Result<Duration, String> {
        if let Some(file) = &self.makes {
            let _ = std::fs::remove_file(file);
        }
        let mut command = Command::new(program);
        command.args(&self.words).stdin(Stdio::null());
        let began = Instant::now();
        let output = command.output().map_err(|error| format!("{}: {error}", program.display()))?;
        let time = began.elapsed();
        let said = String::from_utf8_lossy(&output.stdout);
        let made = self.makes.as_ref().is_none_or(|file| file.metadata().is_ok_and(|file| file.len() > 0));
        if output.status.success() && said.contains(self.says) && made {
            return Ok(time);
        }
        let why = String::from_utf8_lossy(&output.stderr);
        Err(format!("{}: {}, made its file: {made}, said '{said:.200}' and '{why:.200}'", self.name, output.status))
    }
}

/// The commands, on logs of one row, of all entries that there can be, and of many rows.
fn commands(room: &Scratch, session: &Path) -> Result<Vec<Timed>, Error> {
    let [short, full, long, written] =
        ["short", "full", "long", "written"].map(|name| room.file(&format!("{name}.db")));
    let [archive, made, again] = ["run.archive", "made.archive", "again.db"].map(|name| room.file(name));
    Store::create(&short, 2, Capacity::Large)?.name(1)?;
    reads::create(&full, 4_096)?.archive_to(&archive)?;
    reads::create(&written, 1)?;
    Long::create(&long, LONG)?;
    Ok(vec![
        Timed::new("`--version`", &[&"--version"], "cindrolf "),
        Timed::new("`session` of 15 steps", &[&"session", &session], "chain 0:201 0:202 1:204"),
        Timed::new("`trace` of 15 steps", &[&"trace", &session], "</html>"),
        Timed::new("`show` of one row", &[&"show", &short], "0 of 4096"),
        Timed::new("`step`, one write", &[&"step", &written, &"W 0 201"], "1 entry "),
        Timed::new("`show` of 4,096 entries", &[&"show", &full], "4096 of 4096"),
        Timed::new("`total` of 4,096 entries", &[&"total", &full], "total 8.386585159680"),
        Timed::new("`check` of 4,096 entries", &[&"check", &full], "ok, 4100 rows"),
        Timed::new("`trace` of 4,096 entries", &[&"trace", &"--from", &"5", &full], "</html>"),
        Timed::new("`archive` of 4,096 entries", &[&"archive", &full, &made], "").making(made.clone()),
        Timed::new("`restore` of 4,096 entries", &[&"restore", &archive, &again], "").making(again.clone()),
        Timed::new("`show` of 100,000 rows", &[&"show", &long], "last row      100000:"),
        Timed::new("`check` of 100,000 rows", &[&"check", &long], "ok, 100000 rows"),
    ])
}
