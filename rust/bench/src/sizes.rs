//! How many bytes a full log's entries take after a stock compressor, as they are and rearranged.

use model::layout::{ENTRY_WORDS, Entry};
use model::random::Random;
use std::io::Write;
use std::process::{Command, Stdio};

/// A run that fills a log.
pub struct Run {
    /// What it is.
    pub name: &'static str,
    /// How many controllers lead by turns, each for [`TURN`] entries in a ledger of its own.
    controllers: u64,
    values: Values,
}

/// The values of a run.
enum Values {
    /// At random, from one number on and so many above it.
    From(u64, u64),
    /// The first is this, and each other one at random from so far below the one before to so far above it.
    Next(u64, u64, u64),
}

const PARTS: u64 = 200_000_000_000;

/// The runs that are measured.
pub const RUNS: [Run; 5] = [
    Run { name: "one controller, rising values", controllers: 1, values: Values::Next(PARTS, 0, 2_000) },
    Run { name: "one controller, drifting values", controllers: 1, values: Values::Next(PARTS, 1_000, 1_000) },
    Run { name: "one controller, near values", controllers: 1, values: Values::From(PARTS, 1 << 20) },
    Run { name: "sixteen by turns, near values", controllers: 16, values: Values::From(PARTS, 1 << 20) },
    Run { name: "one controller, 52 random bits", controllers: 1, values: Values::From(0, 1 << 52) },
];

const TURN: u64 = 17;

/// The compressors, each with the arguments that have it go from standard input to standard output at its own level.
pub const COMPRESSORS: [(&str, &[&str]); 2] = [("gzip", &["-n", "-c"]), ("zstd", &["-q", "-c"])];

/// What is measured of a run with one compressor, in bytes.
pub struct Sizes {
    /// The run.
    pub run: &'static str,
    /// The compressor.
    pub compressor: &'static str,
    /// Of the words as they lie in memory, least significant byte first.
    pub plain: usize,
    /// Of the same words rearranged.
    pub rearranged: usize,
}

/// The entries of the full log that a run leaves. One controller needs one ledger for them.
fn entries(run: &Run) -> Vec<u64> {
    let mut random = Random::new(9);
    let mut before = None;
    let mut next = || match (&run.values, before) {
        (Values::From(least, count), _) => least + random.below(*count),
        (Values::Next(first, ..), None) => *before.insert(*first),
        (Values::Next(_, below, above), Some(value)) => *before.insert(random.between(value - below, value + above)),
    };
    let turn = |entry| if run.controllers == 1 { 0 } else { entry / TURN };
    (0..ENTRY_WORDS as u64)
        .map(|entry| Entry { ledger: 1 + turn(entry), client: turn(entry) % run.controllers, value: next() })
        .map(|entry| entry.word())
        .collect()
}

/// How many bytes the compressor makes of these.
fn compressed(compressor: &str, arguments: &[&str], bytes: &[u8]) -> Result<usize, String> {
    let failed = |error: std::io::Error| format!("{compressor} can't be run: {error}");
    let mut command = Command::new(compressor);
    command.args(arguments).stdin(Stdio::piped()).stdout(Stdio::piped());
    let mut child = command.spawn().map_err(failed)?;
    // All of them fit the pipe, so nothing waits for the output to be read.
    child.stdin.take().expect("it is piped").write_all(bytes).map_err(failed)?;
    let output = child.wait_with_output().map_err(failed)?;
    if output.status.success() {
        Ok(output.stdout.len())
    } else {
        Err(format!("{compressor} ended with {}", output.status))
    }
}

/// The sizes of every run with one compressor.
pub fn measured(compressor: &'static str, arguments: &[&str]) -> Result<Vec<Sizes>, String> {
    RUNS.iter()
        .map(|run| {
            let words = entries(run);
            let plain: Vec<u8> = words.iter().flat_map(|word| word.to_le_bytes()).collect();
            let mut rearranged = vec![0; plain.len()];
            cindrolf::rearrange(&words, &mut rearranged).map_err(|error| error.to_string())?;
            Ok(Sizes {
                run: run.name,
                compressor,
                plain: compressed(compressor, arguments, &plain)?,
                rearranged: compressed(compressor, arguments, &rearranged)?,
            })
        })
        .collect()
}

#[cfg(test)]
mod tests {
    use super::*;

    fn fields(run: usize) -> Vec<Entry> {
        entries(&RUNS[run]).into_iter().map(Entry::load).collect()
    }

    #[test]
    fn values_are_of_their_kind() {
        let steps = |run| fields(run).windows(2).map(|pair| pair[1].value as i64 - pair[0].value as i64).collect();
        let (rising, drifting): (Vec<i64>, Vec<i64>) = (steps(0), steps(1));
        assert!(rising.iter().all(|step| (0..=2_000).contains(step)));
        assert!(drifting.iter().all(|step| (-1_000..=1_000).contains(step)));
        assert!(drifting.iter().any(|&step| step < 0) && drifting.iter().any(|&step| step > 0));
        let near = PARTS..PARTS + (1 << 20);
        assert!(fields(2).iter().chain(&fields(3)).all(|entry| near.contains(&entry.value)));
        assert!(fields(4).iter().any(|entry| entry.value >= 1 << 51));
    }

    #[test]
    fn a_turn_is_a_ledger() {
        assert!(fields(0).iter().all(|entry| (entry.ledger, entry.client) == (1, 0)));
        let turns = fields(3);
        let at = |index: usize| (turns[index].ledger, turns[index].client);
        assert_eq!([at(0), at(16), at(17), at(272), at(4095)], [(1, 0), (1, 0), (2, 1), (17, 0), (241, 0)]);
    }
}
