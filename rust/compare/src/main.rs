//! Compares the proved library with the model. See `--help`.

use compare::sides::Sides;
use compare::storage::{self, Counts};
use compare::{arguments, buffers, call, forty, histories, logs, sentences, sweep, texts};
use model::random::Random;
use std::fmt;
use std::process::ExitCode;
use std::time::{Duration, Instant};

const HELP: &str = "\
Compares the proved library with the model: every call on both, then the answers and every word of every buffer.

  --seed N    the seed of the random calls (default 1)
  --calls N   how many random calls, half of them in histories from fresh logs, half on buffers of any kind
              (default 1000000); and a hundredth as many that rearrange or restore words, and an eighth as many
              for refusals in words, each written and read
  --no-sweep  without every single-bit change of five logs, of their marks and of their rights
  --all-logs  with forty logs in place of the five: empty to full, clients at each stage, both capacities
  --help      this text

A difference is printed with the smallest case found that shows it, and the exit status is 1.";

struct Options {
    seed: u64,
    calls: u64,
    sweep: bool,
    all_logs: bool,
}

/// The options, or what is wrong with them.
fn options(mut args: impl Iterator<Item = String>) -> Result<Options, String> {
    let mut options = Options { seed: 1, calls: 1_000_000, sweep: true, all_logs: false };
    while let Some(arg) = args.next() {
        let mut number = || {
            let text = args.next().ok_or(format!("{arg} wants a number"))?;
            text.parse().map_err(|_| format!("{arg} wants a number, not '{text}'"))
        };
        match arg.as_str() {
            "--seed" => options.seed = number()?,
            "--calls" => options.calls = number()?,
            "--no-sweep" => options.sweep = false,
            "--all-logs" => options.all_logs = true,
            _ => return Err(format!("unknown option '{arg}'\n\n{HELP}")),
        }
    }
    Ok(options)
}

/// Words rearranged and restored: the lengths at the edges, and a hundredth as many random calls as on logs.
fn run_storage(options: &Options, counts: &mut Counts) -> Result<(), String> {
    storage::edges(storage::library, counts)?;
    let mut random = Random::new(options.seed);
    while counts.calls() < options.calls / 100 {
        storage::compare(storage::library, counts, &mut random)?;
    }
    Ok(())
}

/// Prints at most every two seconds, so that a long run shows that it goes on.
struct Progress {
    start: Instant,
    last: Duration,
}

impl Progress {
    fn show(&mut self, what: &str, sides: &Sides) {
        let now = self.start.elapsed();
        if now - self.last >= Duration::from_secs(2) {
            self.last = now;
            eprintln!("compare: {:4} s, {} calls compared, {what}", now.as_secs(), sides.tally.calls());
        }
    }
}

/// Every sentence, and an eighth as many calls with any numbers as there are others.
fn run_sentences(options: &Options, met: &mut sentences::Met) -> Result<(), String> {
    let mut random = Random::new(options.seed);
    sentences::all(sentences::library, met)?;
    (0..options.calls / 8).try_for_each(|_| sentences::any(sentences::library, &mut random, met))
}

/// Every sentence read back, the texts at the edges, and as many that are nearly sentences.
fn run_texts(options: &Options, met: &mut texts::Met) -> Result<(), String> {
    let mut random = Random::new(options.seed);
    texts::all(texts::library, met)?;
    texts::edges(texts::library, met)?;
    (0..options.calls / 8).try_for_each(|_| texts::any(texts::library, &mut random, met))
}

/// How many single-bit changes were compared.
#[derive(Default)]
struct Swept {
    logs: u64,
    of_logs: u64,
    of_marks: u64,
    of_rights: u64,
}

impl fmt::Display for Swept {
    fn fmt(&self, f: &mut fmt::Formatter<'_>) -> fmt::Result {
        let Swept { logs, of_logs, of_marks, of_rights } = self;
        writeln!(f, "single-bit changes of {logs} logs: {of_logs}, of their marks {of_marks}, of rights {of_rights}")
    }
}

/// Each log as it is, and with every single-bit change.
fn run_logs(options: &Options, sides: &mut Sides, progress: &mut Progress, swept: &mut Swept) -> Result<(), String> {
    for log in if options.all_logs { forty::all() } else { logs::all() } {
        sweep::undamaged(call::library, sides, &log)?;
        if !options.sweep {
            continue;
        }
        swept.of_marks += sweep::mark_changes(call::library, sides, &log)?;
        swept.of_rights += sweep::rights_changes(call::library, sides, &log)?;
        let bits = sweep::bits(&log);
        for start in (0..bits).step_by(4096) {
            swept.of_logs += sweep::changes(call::library, sides, &log, start..bits.min(start + 4096))?;
            progress.show(&format!("single-bit changes of the log '{}'", log.name), sides);
        }
        swept.logs += 1;
    }
    Ok(())
}

fn run_random(options: &Options, sides: &mut Sides, progress: &mut Progress) -> Result<(), String> {
    let mut random = Random::new(options.seed);
    let (first, mut in_histories) = (sides.tally.calls(), 0);
    loop {
        let before = sides.tally.calls();
        if before - first >= options.calls {
            return Ok(());
        }
        if 2 * in_histories <= before - first {
            histories::compare(call::library, sides, &mut random)?;
            in_histories += sides.tally.calls() - before;
        } else {
            buffers::compare(call::library, sides, &mut random)?;
        }
        progress.show("random histories and buffers", sides);
    }
}

fn main() -> ExitCode {
    let options = match arguments::options("compare", HELP, options) {
        Ok(options) => options,
        Err(status) => return status,
    };
    println!("compare: seed {}, {} random calls", options.seed, options.calls);
    let mut sides = Sides::new(call::library);
    let (mut counts, mut written, mut read) = (Counts::default(), sentences::Met::default(), texts::Met::default());
    let (start, mut swept) = (Instant::now(), Swept::default());
    let mut progress = Progress { start, last: Duration::ZERO };
    let result = run_logs(&options, &mut sides, &mut progress, &mut swept)
        .and_then(|()| run_random(&options, &mut sides, &mut progress))
        .and_then(|()| run_storage(&options, &mut counts))
        .and_then(|()| run_sentences(&options, &mut written))
        .and_then(|()| run_texts(&options, &mut read));
    print!("{}{counts}{written}{read}{swept}", sides.tally);
    let never = sides.tally.never_met();
    if !never.is_empty() {
        println!("never met: {}", never.join(", "));
    }
    let seconds = start.elapsed().as_secs_f64();
    let calls = sides.tally.calls() + counts.calls() + written.calls() + read.calls();
    match result {
        Ok(()) => {
            println!("compare: {calls} calls, no difference, {seconds:.1} s");
            ExitCode::SUCCESS
        }
        Err(report) => {
            println!("compare: a difference after {calls} calls (seed {})\n{report}", options.seed);
            ExitCode::FAILURE
        }
    }
}
