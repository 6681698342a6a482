//! Steps from lines, each answered when it is stored.
//!
//! The lines that are ready are taken together, as one request: many writes are then one transaction, and one wait for
//! the disk. A line that comes alone is answered at once.

use crate::failure::Failure;
use crate::lines::{Lines, Next};
use crate::signals::Signals;
use cindrolf::Step;
use limits::BATCH_LIMIT;
use std::fs::File;
use std::io::Write;
use std::os::fd::AsFd;
use std::path::{Path, PathBuf};
use std::time::Duration;
use store::{Asked, Change, Error, LastRow, Store, Told};

/// How long no line comes before the write-ahead log is copied back.
const IDLE: Duration = Duration::from_secs(1);

/// How steps are taken.
#[derive(Clone, Debug, PartialEq, Eq)]
pub struct Manner {
    /// Whether a refusal is told in words too.
    pub explain: bool,
    /// How long a step waits for the lock of another process.
    pub wait: Duration,
    /// The file that keeps the last row.
    pub witness: Option<PathBuf>,
}

/// Takes the steps of these lines, or of standard input where there are none. A signal ends it after the present steps.
pub fn take(file: &Path, lines: &[Vec<u8>], manner: &Manner) -> Result<(), Failure> {
    let signals = Signals::catch().map_err(Failure::Input)?;
    let mut store = crate::open(file)?;
    store.set_patience(manner.wait);
    if let Some(witness) = &manner.witness {
        store.keep_witness(witness).map_err(|error| Failure::of_reading(file, error))?;
    }
    let copied = store.last_row();
    let mut stepper = Stepper { file, store, explain: manner.explain, number: 0, copied };
    let taken = if lines.is_empty() { stepper.input(&signals) } else { stepper.lines(lines, &signals) };
    if stepper.has_more() {
        stepper.rest();
    }
    drop(stepper);
    taken?;
    signals.end();
    if lines.iter().any(|line| !line.contains(&b' ')) {
        eprintln!("cindrolf: a LINE is one argument: \"W 0 201\", and not W 0 201");
    }
    Ok(())
}

struct Stepper<'a> {
    file: &'a Path,
    store: Store,
    explain: bool,
    /// How many lines were answered.
    number: u64,
    /// The last row when the log was opened, or when it was last copied back from the write-ahead log.
    copied: Option<LastRow>,
}

impl Stepper<'_> {
    fn lines(&mut self, lines: &[Vec<u8>], signals: &Signals) -> Result<(), Failure> {
        lines.chunks(BATCH_LIMIT).take_while(|_| !signals.came()).try_for_each(|lines| self.batch(lines))
    }

    fn input(&mut self, signals: &Signals) -> Result<(), Failure> {
        let input = File::from(std::io::stdin().as_fd().try_clone_to_owned().map_err(Failure::Input)?);
        let file = input.try_clone().map_err(Failure::Input)?;
        let mut lines = Lines::new(input);
        let mut ended = false;
        while !ended && !signals.came() {
            let mut time = self.has_more().then_some(IDLE);
            let mut batch = Vec::new();
            while batch.len() < BATCH_LIMIT {
                match lines.next(|| signals.wait(file.as_fd(), time)).map_err(Failure::Input)? {
                    Next::Line(line) => batch.push(line),
                    Next::Idle if batch.is_empty() => self.rest(),
                    Next::Idle => break,
                    Next::End => {
                        ended = true;
                        break;
                    }
                }
                // What comes later is not waited for.
                time = if batch.is_empty() { None } else { Some(Duration::ZERO) };
            }
            self.batch(&batch)?;
        }
        Ok(())
    }

    /// Whether there are steps since the write-ahead log was copied back.
    fn has_more(&self) -> bool {
        self.store.last_row() != self.copied
    }

    /// Copies the write-ahead log back, so that the file holds every step by itself. Where that fails, or a reader keeps
    /// some of it, the steps are as well stored as before, and it is tried again at the next rest.
    fn rest(&mut self) {
        if let Ok(true) = self.store.checkpoint() {
            self.copied = self.store.last_row();
        }
    }

    /// Takes the steps of these lines as one request, and prints the number and the reply of each.
    fn batch(&mut self, lines: &[Vec<u8>]) -> Result<(), Failure> {
        let steps: Vec<_> = lines.iter().map(|line| session::step(line)).collect();
        let asked = steps.iter().flatten().map(|&(client, step)| Change::Step(client, step).into());
        let asked: Vec<Asked> = asked.collect();
        let told = match self.store.take_all(&asked) {
            // Those for which there is room are taken.
            Err(Error::JournalFull(_)) if lines.len() > 1 => {
                return lines.chunks(1).try_for_each(|line| self.batch(line));
            }
            told => told.map_err(|error| Failure::of_lines(self.file, self.number + 1, lines, error))?,
        };
        let mut told = told.into_iter();
        let mut replies = String::new();
        for step in steps {
            self.number += 1;
            let reply = match step.and_then(|step| Some((step, told.next()?))) {
                None => "bad line".into(),
                Some(((client, step), told)) => self.reply(client, step, told)?,
            };
            replies += &format!("{} {reply}\n", self.number);
        }
        let mut output = std::io::stdout().lock();
        let printed = output.write_all(replies.as_bytes()).and_then(|()| output.flush());
        printed.map_err(|error| Failure::Reply(replies.trim_end().replace('\n', ", "), error))
    }

    fn reply(&self, client: u64, step: Step, told: Told) -> Result<String, Failure> {
        match told {
            Ok(answer) => Ok(answer.to_string()),
            Err(refusal) if self.explain => {
                let sentence = refusal.sentence(step.kind(), client);
                let sentence = sentence.map_err(|error| Failure::of_reading(self.file, error.into()))?;
                Ok(format!("ref {}: {sentence}", refusal.number()))
            }
            Err(refusal) => Ok(format!("ref {}", refusal.number())),
        }
    }
}
