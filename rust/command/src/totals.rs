//! The run total of one log, or of a run over several.
//!
//! The library computes each log's total, and it is proved. This file adds up several, in whole parts of 10^-12 and 128
//! bits, and rounded once. The total of a log is below 2^64 parts, so the sum of all logs that a command line can name
//! fits.

use crate::failure::Failure;
use crate::given::{self, Given};
use crate::json::Json;
use crate::printable::printable;
use crate::proved;
use cindrolf::{LedgerNumber, LedgerSum, RunTotal};
use session::{exact, total_lines};
use std::fmt::Write;
use std::path::{Path, PathBuf};
use std::process::ExitCode;
use store::Error;

/// The parts of a unit, and of a thousandth.
const UNIT: u128 = 1_000_000_000_000;
const THOUSANDTH: u128 = UNIT / 1_000;

const TOO_WIDE: &str = "the total over these logs has more than 64 bits: add up fewer of them";

/// A log with its ledgers and its total.
struct Sums<'a> {
    log: &'a Path,
    ledgers: Vec<(LedgerNumber, LedgerSum)>,
    total: RunTotal,
}

/// Prints the totals of these files: of one session, by the proved program, or of logs.
pub fn print(files: &[PathBuf], as_json: bool) -> Result<ExitCode, Failure> {
    let [file] = files else {
        if files.is_empty() && as_json {
            return Err(Failure::Arguments("--json is of logs, and standard input has a session".into()));
        }
        return if files.is_empty() { proved::run("total", None) } else { several(files, as_json) };
    };
    match given::look(file)? {
        Given::Session(_) if as_json => {
            Err(Failure::Arguments(format!("--json is of logs, and {} is a session", file.display())))
        }
        Given::Session(opened) => proved::run("total", Some(opened)),
        Given::Log => several(files, as_json),
    }
}

fn several(files: &[PathBuf], as_json: bool) -> Result<ExitCode, Failure> {
    for file in files {
        if let Given::Session(_) = given::look(file)? {
            return Err(Failure::Arguments(format!("{} is no log: several FILEs must all be logs", file.display())));
        }
    }
    let logs = files.iter().map(|log| sums(log)).collect::<Result<Vec<_>, _>>()?;
    let total = match &logs[..] {
        [sums] => sums.total,
        _ => over_all(logs.iter().map(|sums| sums.total)).ok_or_else(|| Failure::Program(TOO_WIDE.into()))?,
    };
    crate::print(&if as_json { json(&logs, total).line() } else { text(&logs, total) })?;
    Ok(ExitCode::SUCCESS)
}

fn sums(log: &Path) -> Result<Sums<'_>, Failure> {
    let mut store = crate::open(log)?;
    let read = |store: &mut store::Store| {
        let latest = store.latest()?;
        Ok::<_, Error>(Sums { log, ledgers: latest.sums()?, total: latest.total()? })
    };
    read(&mut store).map_err(|error| Failure::of_reading(log, error))
}

/// The sum of totals, exact, and rounded once, a half up. None where it has 2^64 thousandths or more.
fn over_all(totals: impl Iterator<Item = RunTotal>) -> Option<RunTotal> {
    let parts: u128 = totals.map(|total| u128::from(total.ones) * UNIT + u128::from(total.parts)).sum();
    let rounded = u64::try_from((parts + THOUSANDTH / 2) / THOUSANDTH).ok()?;
    Some(RunTotal { ones: (parts / UNIT) as u64, parts: (parts % UNIT) as u64, rounded })
}

fn text(logs: &[Sums<'_>], total: RunTotal) -> String {
    let mut text = String::new();
    for sums in logs {
        if logs.len() > 1 {
            let _ = writeln!(text, "log {}", printable(sums.log.as_os_str().as_encoded_bytes()));
        }
        for (LedgerNumber(number), ledger) in &sums.ledgers {
            let _ = writeln!(text, "ledger {number} entries {} sum {}", ledger.entries, exact(ledger.sum));
        }
    }
    let [total, rounded] = total_lines(total);
    text + &format!("{total}\n{rounded}\n")
}

fn json(logs: &[Sums<'_>], total: RunTotal) -> Json {
    let ledger = |(LedgerNumber(number), ledger): &(LedgerNumber, LedgerSum)| {
        let sum = exact(ledger.sum);
        Json::Object(vec![("ledger", (*number).into()), ("entries", ledger.entries.into()), ("sum", sum.into())])
    };
    let of = |sums: &Sums<'_>| {
        let mut fields = vec![("file", Json::path(sums.log)), ("ledgers", Json::list(sums.ledgers.iter().map(ledger)))];
        fields.extend(lines(sums.total));
        Json::Object(fields)
    };
    let mut fields = vec![("logs", Json::list(logs.iter().map(of)))];
    fields.extend(lines(total));
    Json::Object(fields)
}

/// The total as fields: what the two lines have after their names.
fn lines(total: RunTotal) -> [(&'static str, Json); 2] {
    let [exact, rounded] = total_lines(total).map(|line| line.split(' ').next_back().map(str::to_owned).into());
    [("total", exact), ("rounded", rounded)]
}

#[cfg(test)]
mod tests {
    use super::*;

    fn total(parts: u64) -> RunTotal {
        let unit = UNIT as u64;
        RunTotal { ones: parts / unit, parts: parts % unit, rounded: 0 }
    }

    fn sum(parts: &[u64]) -> [String; 2] {
        total_lines(over_all(parts.iter().map(|&parts| total(parts))).unwrap())
    }

    // Half a thousandth is 500,000,000 parts. Each of the first two rounds to nothing, and their sum does not.
    #[test]
    fn rounded_once() {
        assert_eq!(sum(&[250_000_000, 250_000_000]), ["total 0.000500000000", "rounded 0.001"]);
        assert_eq!(sum(&[250_000_000, 249_999_999]), ["total 0.000499999999", "rounded 0.000"]);
        assert_eq!(sum(&[1_500_000_000_000, 999_999_999_999]), ["total 2.499999999999", "rounded 2.500"]);
        // The largest total of a log, 4,096 times 2^52 - 1 parts, four times: 73,786,976,294,838,190,080 parts.
        let largest = 4_096 * ((1 << 52) - 1);
        assert_eq!(sum(&[largest; 4]), ["total 73786976.294838190080", "rounded 73786976.295"]);
        assert_eq!(over_all([RunTotal { ones: u64::MAX, parts: 0, rounded: 0 }].into_iter()), None);
    }
}
