//! Writes by two archives, called in turn: what they take, and whether an answer or a word differs.

use crate::library::{APPEND, BECOME, CLOSE_OWN, CREATE, FETCH, FRESH, Library, Log, Written};
use crate::measure::Spread;
use model::layout::{ENTRY_WORDS, STATE_WORDS};
use model::random::Random;
use std::ffi::CStr;
use std::hint::black_box;
use std::path::Path;
use std::time::Instant;

const CLIENTS: u64 = 16;

/// Where refusals begin among the answers, and where entry numbers do.
const REFUSED: u64 = 256;
const ENTRY: u64 = 1 << 32;

/// How many writes are timed in a row.
const BATCH: usize = 20;

/// How many calls on each log are compared one by one, besides those that are timed.
const TRIES: usize = 20_000;

/// The same log in the hands of each archive.
struct Pair<'a> {
    libraries: [&'a Library; 2],
    logs: [Log; 2],
    compared: usize,
    refused: usize,
}

impl<'a> Pair<'a> {
    fn new(libraries: [&'a Library; 2]) -> Self {
        let log = Log { state: vec![0; STATE_WORDS], entries: vec![0; ENTRY_WORDS] };
        Pair { libraries, logs: [log.clone(), log], compared: 0, refused: 0 }
    }

    /// Has both make the same call, and compares the answers and every word afterwards.
    fn call(&mut self, what: &str, call: impl Fn(&Library, &mut Log) -> u64) -> Result<u64, String> {
        let [before, after] = [0, 1].map(|side| call(self.libraries[side], &mut self.logs[side]));
        if before != after {
            return Err(format!("{what}: answers {before} before and {after} after"));
        }
        self.same(what)?;
        self.compared += 1;
        self.refused += usize::from((REFUSED..ENTRY).contains(&before));
        Ok(before)
    }

    fn same(&self, what: &str) -> Result<(), String> {
        if self.logs[0] == self.logs[1] { Ok(()) } else { Err(format!("{what}: the words differ afterwards")) }
    }

    /// A step that a log is made by, and that is done.
    fn step(&mut self, name: &CStr, number: u64) -> Result<(), String> {
        let what = name.to_string_lossy();
        let done = self.call(&what, |library, log| library.step(log, name, number))?;
        if done == 0 { Ok(()) } else { Err(format!("{what} answers {done} where it should be done")) }
    }

    /// A log of this many ledgers, each but the last closed by client 0, whose they are, with these entries spread over them.
    fn chain(&mut self, ledgers: usize, entries: usize) -> Result<(), String> {
        self.step(FRESH, CLIENTS)?;
        self.step(BECOME, 0)?;
        self.step(FETCH, 0)?;
        for ledger in 1..=ledgers {
            self.step(CREATE, 0)?;
            self.step(APPEND, 0)?;
            for entry in entries * (ledger - 1) / ledgers..entries * ledger / ledgers {
                self.call("write", |library, log| library.write(log, 0, Written::Value(entry as u64)))?;
            }
            if ledger < ledgers {
                self.step(CLOSE_OWN, 0)?;
            }
        }
        Ok(())
    }

    /// Writes of each kind by any client, half of them on a log with one bit flipped; the log is as before afterwards.
    fn tries(&mut self, kinds: &[Kind]) -> Result<(), String> {
        let log = self.logs[0].clone();
        let mut random = Random::new(log.entries[0]);
        for number in 0..TRIES {
            if random.chance(50) {
                let word = random.below((STATE_WORDS + ENTRY_WORDS) as u64) as usize;
                let flip = 1 << random.below(64);
                for log in &mut self.logs {
                    let Log { state, entries } = log;
                    *state.iter_mut().chain(entries).nth(word).expect("it is one of both") ^= flip;
                }
            }
            let kind = &kinds[number % kinds.len()];
            // Mostly the one who can write; values of up to 53 bits.
            let client = if random.chance(70) { 0 } else { random.below(CLIENTS + 2) };
            let value = random.word() >> (11 + random.below(20));
            self.call(kind.name, |library, log| library.write(log, client, kind.written(value)))?;
            for side in 0..2 {
                self.logs[side].clone_from(&log);
            }
        }
        Ok(())
    }

    /// Times batches of writes by client 0 in turn, and undoes each. Answers and words are compared after each batch.
    fn timed(&mut self, kind: &Kind, rounds: usize) -> Result<[Vec<f64>; 2], String> {
        let (head, count) = (self.logs[0].state[0], (self.logs[0].state[0] >> 51) as usize);
        let (mut taken, mut answers) = ([vec![], vec![]], [[0; BATCH]; 2]);
        for round in 0..rounds {
            for side in [round % 2, 1 - round % 2] {
                let (library, log) = (self.libraries[side], &mut self.logs[side]);
                let start = Instant::now();
                for (value, answer) in (0..).zip(&mut answers[side]) {
                    *answer = library.write(black_box(log), 0, kind.written(value));
                }
                taken[side].push(start.elapsed().as_nanos() as f64 / BATCH as f64);
            }
            let numbered = |(number, &answer): (u64, &u64)| {
                (ENTRY + (number << 16)..ENTRY + ((number + 1) << 16)).contains(&answer)
            };
            if answers[0] != answers[1] || !(count as u64..).zip(&answers[0]).all(numbered) {
                return Err(format!("{}: answers {:?} before and {:?} after", kind.name, answers[0], answers[1]));
            }
            self.same(kind.name)?;
            for log in &mut self.logs {
                log.state[0] = head;
                log.entries[count..count + BATCH].fill(0);
            }
        }
        Ok(taken)
    }
}

/// A kind of write.
struct Kind {
    name: &'static str,
    written: fn(&Kind, u64) -> Written<'_>,
    rights: Vec<u64>,
    scores: Vec<u16>,
}

impl Kind {
    fn written(&self, value: u64) -> Written<'_> {
        (self.written)(self, value)
    }
}

fn kinds(libraries: [&Library; 2]) -> Vec<Kind> {
    let kind = |name, written| Kind {
        name,
        written,
        rights: vec![0xFFC0_0000_0000_0000; CLIENTS as usize],
        scores: vec![40, 120, 372],
    };
    let mut kinds = vec![
        kind("write", |_, value| Written::Value(value)),
        kind("write scores", |kind, _| Written::Scores(&kind.scores)),
    ];
    if libraries.iter().all(|library| library.has_rights()) {
        kinds.push(kind("under rights", |kind, value| Written::Under(&kind.rights, value)));
    }
    kinds
}

fn row(log: &str, kind: &str, taken: [Vec<f64>; 2]) {
    let ratios = taken[0].iter().zip(&taken[1]).map(|(before, after)| after / before).collect();
    let [before, after] = taken.map(Spread::of);
    let ratio = Spread::of(ratios);
    println!(
        "{log:<32} {kind:<13} {:>8.1} ({:>7.1} .. {:>7.1})   {:>8.1} ({:>7.1} .. {:>7.1})   {:>6.3} ({:>5.3} .. {:>5.3})",
        before.median,
        before.low,
        before.high,
        after.median,
        after.low,
        after.high,
        ratio.median,
        ratio.low,
        ratio.high
    );
}

fn table(libraries: [&Library; 2], rounds: usize) -> Result<(), String> {
    println!(
        "{:<32} {:<13} {:>28}   {:>28}   {:>24}",
        "log", "call", "before, ns (quartiles)", "after, ns (quartiles)", "after / before"
    );
    let kinds = kinds(libraries);
    let (mut compared, mut refused) = (0, 0);
    let full = ENTRY_WORDS - BATCH;
    let logs = [
        ("empty", 1, 0),
        ("255 ledgers, from 255 entries on", 255, 255),
        ("255 ledgers, to the last entry", 255, full),
    ];
    for (name, ledgers, entries) in logs {
        let mut pair = Pair::new(libraries);
        pair.chain(ledgers, entries)?;
        pair.tries(&kinds)?;
        for kind in &kinds {
            row(name, kind.name, pair.timed(kind, rounds)?);
        }
        (compared, refused) = (compared + pair.compared, refused + pair.refused);
    }
    println!(
        "Both gave the same answers and the same words in {compared} calls that were compared one by one, {refused} of them \
         refused, and in each batch of {BATCH} that was timed."
    );
    Ok(())
}

/// Prints what a write takes by the archive before and the one after, each a shared object.
pub fn against(before: &Path, after: &Path, rounds: usize) -> Result<(), String> {
    let [before, after] = [Library::load(before)?, Library::load(after)?];
    if before.version != after.version {
        let versions = format!("version {} before and {} after", before.version, after.version);
        return Err(format!("the archives have different interfaces, {versions}, so their calls can't be compared"));
    }
    println!(
        "Interface version {}. Median and quartiles over {rounds} rounds of {BATCH} writes, in turn.",
        after.version
    );
    table([&before, &after], rounds)
}
