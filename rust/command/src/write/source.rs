//! What is written, one read after the other: from FASTQ, from lists of scores, or from values.

use crate::failure::Failure;
use crate::signals::Signals;
use crate::write::fastq::{Broken, NoRecord, Records};
use crate::write::input::{self, Input};
use crate::write::scores::{Lists, NoList};
use cindrolf::Step;
use limits::{SCORE_LIMIT, SCORES_LIMIT};
use std::path::Path;
use store::{Asked, Change};

/// What comes next.
pub enum Next {
    /// A read to be written.
    Read(Asked),
    /// Nothing for now.
    Idle,
    /// Nothing any more.
    End,
}

/// Where reads come from.
pub trait Source {
    /// The next one. Who is not patient is told that there is none for now.
    fn next(&mut self, is_patient: bool) -> Result<Next, Failure>;

    /// How much of the input was read, and how much there is, if that is known.
    fn progress(&mut self) -> Option<(u64, u64)> {
        None
    }

    /// What one of them is called, and more of them.
    fn unit(&self) -> [&'static str; 2];
}

/// Whether the log takes these scores: else it refuses them by 18 or 19, whatever its state.
pub fn fits(asked: &Asked) -> bool {
    match &asked.change {
        Change::WriteScores(_, scores) => {
            (1..=SCORES_LIMIT).contains(&scores.len()) && scores.iter().all(|&score| score <= SCORE_LIMIT)
        }
        _ => true,
    }
}

/// The records of a file of FASTQ.
pub struct Fastq<'a> {
    name: &'a Path,
    client: u64,
    signals: &'a Signals,
    records: Records<Input<'a>>,
}

impl<'a> Fastq<'a> {
    pub fn open(name: &'a Path, client: u64, signals: &'a Signals) -> Result<Self, Failure> {
        Ok(Fastq { name, client, signals, records: Records::new(Input::open(name, signals)?) })
    }

    /// What is wrong with the packed input, where that has come to its end.
    fn whole(&mut self) -> Result<(), Failure> {
        let (record, line) = self.records.place();
        let fault = self.records.input().fault();
        fault.map_or(Ok(()), |why| Err(self.failure(&Broken { record, line, why, is_cut: true })))
    }

    fn failure(&self, broken: &Broken) -> Failure {
        let Broken { record, line, why, .. } = broken;
        let after = "nothing of it is stored; correct it, and give the same command with --resume";
        Failure::File(self.name.into(), format!("record {record}, line {line}: {why}; {after}"))
    }
}

impl Source for Fastq<'_> {
    fn next(&mut self, is_patient: bool) -> Result<Next, Failure> {
        self.records.input().patient = is_patient;
        match self.records.next() {
            Ok(Some(record)) => {
                let change = Change::WriteScores(self.client, record.scores);
                Ok(Next::Read(Asked { change, note: Some(record.name) }))
            }
            // What was begun when a signal came is none.
            Ok(None) | Err(NoRecord::Broken(Broken { is_cut: true, .. })) if self.signals.came() => Ok(Next::End),
            Ok(None) => self.whole().map(|()| Next::End),
            Err(NoRecord::Idle) => Ok(Next::Idle),
            Err(NoRecord::Input(error)) => Err(input::failure(self.name, error)),
            Err(NoRecord::Broken(broken)) => {
                if broken.is_cut {
                    self.whole()?;
                }
                Err(self.failure(&broken))
            }
        }
    }

    fn progress(&mut self) -> Option<(u64, u64)> {
        self.records.input().progress()
    }

    fn unit(&self) -> [&'static str; 2] {
        ["read", "reads"]
    }
}

/// Lists of scores from standard input, one a line.
pub struct Scores<'a> {
    client: u64,
    signals: &'a Signals,
    lists: Lists<Input<'a>>,
}

impl<'a> Scores<'a> {
    pub fn open(client: u64, signals: &'a Signals) -> Result<Self, Failure> {
        Ok(Scores { client, signals, lists: Lists::new(Input::open(Path::new("-"), signals)?) })
    }
}

impl Source for Scores<'_> {
    fn next(&mut self, is_patient: bool) -> Result<Next, Failure> {
        self.lists.input().patient = is_patient;
        match self.lists.next() {
            Ok(Some(scores)) => Ok(Next::Read(Change::WriteScores(self.client, scores).into())),
            Ok(None) => Ok(Next::End),
            Err(NoList::Cut) if self.signals.came() => Ok(Next::End),
            Err(NoList::Idle) => Ok(Next::Idle),
            Err(NoList::Input(error)) => Err(Failure::Input(error)),
            Err(no_list) => {
                let (line, why) = (self.lists.number(), no_list.why());
                Err(Failure::Program(format!("standard input: line {line}: {why}; nothing of it is stored")))
            }
        }
    }

    fn unit(&self) -> [&'static str; 2] {
        ["list", "lists"]
    }
}

/// Values from the arguments.
pub struct Values<'a> {
    pub client: u64,
    pub values: &'a [u64],
}

impl Source for Values<'_> {
    fn next(&mut self, _: bool) -> Result<Next, Failure> {
        let Some((&value, rest)) = self.values.split_first() else { return Ok(Next::End) };
        self.values = rest;
        Ok(Next::Read(Change::Step(self.client, Step::write(value)).into()))
    }

    fn unit(&self) -> [&'static str; 2] {
        ["value", "values"]
    }
}
