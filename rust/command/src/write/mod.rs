//! Reads, written to one log after the other as they fill, many in one request, and answered when they are stored.

mod fastq;
mod input;
mod progress;
mod resume;
mod scores;
mod source;

use crate::failure::Failure;
use crate::signals::Signals;
use cindrolf::{Answer, Kind, Position, Refusal, Stage};
use limits::BATCH_LIMIT;
use progress::Progress;
use resume::Passed;
use source::{Fastq, Next, Scores, Source, Values, fits};
use std::fmt::Write as _;
use std::io::Write as _;
use std::path::{Path, PathBuf};
use store::{Asked, Store};

/// What is written.
#[derive(Debug, PartialEq, Eq)]
pub enum Reads {
    Fastq(PathBuf),
    /// Lists of scores, from standard input.
    Scores,
    Values(Vec<u64>),
}

/// What is written where, and how.
#[derive(Debug, PartialEq, Eq)]
pub struct Writing {
    pub logs: Vec<PathBuf>,
    pub client: u64,
    pub reads: Reads,
    /// Whether what is stored already is passed over.
    pub resume: bool,
    /// Whether a read that the log refuses ends it.
    pub strict: bool,
}

/// Writes all reads. A signal ends it after those that were read.
pub fn write(writing: &Writing) -> Result<(), Failure> {
    let signals = Signals::catch().map_err(Failure::Input)?;
    let mut source: Box<dyn Source> = match &writing.reads {
        Reads::Fastq(name) => Box::new(Fastq::open(name, writing.client, &signals)?),
        Reads::Scores => Box::new(Scores::open(writing.client, &signals)?),
        Reads::Values(values) => Box::new(Values { client: writing.client, values }),
    };
    let mut writer = Writer::begin(writing, &mut *source, &signals)?;
    let written = writer.all(&mut *source, &signals);
    writer.progress.clear();
    // Closing a log makes one file of it.
    drop(writer);
    written?;
    drop(source);
    signals.end();
    Ok(())
}

struct Writer<'a> {
    writing: &'a Writing,
    /// The log that is written to, if it is open.
    store: Option<Store>,
    /// Which one of the logs that is.
    at: usize,
    /// How many entries it has room for.
    room: u64,
    /// The number of the next read in the input, from 1.
    next: u64,
    /// How many this call has stored, and the last of them.
    stored: u64,
    last: Option<(String, Position)>,
    unit: [&'static str; 2],
    progress: Progress,
}

/// Reads that follow one another in the input, to be one request.
#[derive(Default)]
struct Group {
    asked: Vec<Asked>,
    /// One that the log refuses by itself. It is asked for alone, after the others, so that none of them hangs on it.
    odd: Option<Asked>,
    ended: bool,
}

impl<'a> Writer<'a> {
    /// Looks at each log before the first read is written.
    fn begin(writing: &'a Writing, source: &mut dyn Source, signals: &Signals) -> Result<Self, Failure> {
        let unit = source.unit();
        let mut passed = Passed { source, signals, client: writing.client, read: 0, stored: 0 };
        let (mut store, mut at, mut room) = (None, writing.logs.len(), 0);
        for (index, log) in writing.logs.iter().enumerate().take_while(|_| !signals.came()) {
            let mut opened = crate::open(log)?;
            if writing.resume && passed.over(log, &mut opened)? {
                // Those of an earlier log come before these.
                (store, at) = (None, writing.logs.len());
            }
            let left = room_in(log, &mut opened, writing.client)?;
            if left > 0 && store.is_none() {
                (store, at, room) = (Some(opened), index, left);
            }
        }
        let next = passed.read + 1;
        if writing.resume && !signals.came() {
            let (count, one) = (passed.stored, passed.stored == 1);
            let (unit, are) = if one { (unit[0], "is") } else { (unit[1], "are") };
            eprintln!("cindrolf: {count} {unit} {are} stored already");
        }
        let progress = Progress::begin();
        Ok(Writer { writing, store, at, room, next, stored: 0, last: None, unit, progress })
    }

    fn all(&mut self, source: &mut dyn Source, signals: &Signals) -> Result<(), Failure> {
        let mut ended = false;
        while !ended && !signals.came() {
            let mut group = Group::default();
            let gathered = self.gather(source, &mut group);
            self.ask(&group.asked)?;
            if let Some(odd) = group.odd {
                self.ask(&[odd])?;
            }
            gathered?;
            ended = group.ended;
            self.progress.show(self.stored, self.unit[1], source.progress());
        }
        Ok(())
    }

    /// Gathers the reads that are ready. What is wrong with the next one is told after they are stored.
    fn gather(&self, source: &mut dyn Source, group: &mut Group) -> Result<(), Failure> {
        let most = BATCH_LIMIT.min(usize::try_from(self.room).unwrap_or(BATCH_LIMIT)).max(1);
        while group.asked.len() < most {
            match source.next(group.asked.is_empty())? {
                Next::Read(asked) if fits(&asked) => group.asked.push(asked),
                Next::Read(asked) => {
                    group.odd = Some(asked);
                    break;
                }
                Next::Idle if group.asked.is_empty() => {}
                Next::Idle => break,
                Next::End => {
                    group.ended = true;
                    break;
                }
            }
        }
        Ok(())
    }

    /// Has these be stored, in the next logs too as one is full, and prints the answers.
    fn ask(&mut self, mut asked: &[Asked]) -> Result<(), Failure> {
        while !asked.is_empty() {
            if self.store.is_none() {
                self.open_next(&asked[0])?;
            }
            let Some(store) = &mut self.store else { continue };
            let log = &self.writing.logs[self.at];
            let told = store.take_all(asked);
            let told = told.map_err(|error| Failure::of_request(log, &self.named(asked), error))?;
            let (mut answers, mut stopped, before) = (String::new(), None, self.next);
            for (asked, told) in asked.iter().zip(told) {
                match told {
                    Err(Refusal::LogFull) => {
                        self.store = None;
                        break;
                    }
                    told => stopped = self.answer(asked, told, &mut answers)?,
                }
                if stopped.is_some() {
                    break;
                }
            }
            self.print(&answers)?;
            if let Some(failure) = stopped {
                return Err(failure);
            }
            asked = &asked[(self.next - before) as usize..];
        }
        Ok(())
    }

    /// Puts down the answer to the next read, and gives why it ends the writing, if it does.
    fn answer(&mut self, asked: &Asked, told: store::Told, answers: &mut String) -> Result<Option<Failure>, Failure> {
        let name = self.name(asked);
        let (said, goes_on) = match told {
            Ok(Answer::Stored(at)) => {
                let _ = writeln!(answers, "{name} {}", Answer::Stored(at));
                (self.stored, self.room) = (self.stored + 1, self.room.saturating_sub(1));
                (self.last, self.next) = (Some((name, at)), self.next + 1);
                return Ok(None);
            }
            Ok(answer) => (answer.to_string(), false),
            Err(refusal) => {
                let sentence = refusal.sentence(Kind::Write, self.writing.client);
                let sentence = sentence.map_err(|error| Failure::Program(error.to_string()))?;
                let is_odd = matches!(refusal, Refusal::ScoreCount | Refusal::ScoreTooHigh);
                (format!("ref {}: {sentence}", refusal.number()), is_odd && !self.writing.strict)
            }
        };
        if goes_on {
            let _ = writeln!(answers, "{name} {said}");
            self.next += 1;
            return Ok(None);
        }
        Ok(Some(self.stop(asked, &said)))
    }

    /// The answers are told before anything else is done. A reader that has gone away ends the writing.
    fn print(&mut self, answers: &str) -> Result<(), Failure> {
        self.progress.clear();
        let mut output = std::io::stdout().lock();
        let printed = output.write_all(answers.as_bytes()).and_then(|()| output.flush());
        printed.map_err(|error| Failure::Reply(format!("answers to what is stored; {}", self.reached()), error))
    }

    /// Goes on in the next log that has room.
    fn open_next(&mut self, asked: &Asked) -> Result<(), Failure> {
        let logs = &self.writing.logs;
        let full = logs.get(self.at);
        for (index, log) in logs.iter().enumerate().skip(full.map_or(logs.len(), |_| self.at + 1)) {
            let mut store = crate::open(log)?;
            self.room = room_in(log, &mut store, self.writing.client)?;
            if self.room > 0 {
                self.progress.clear();
                eprintln!("cindrolf: {} is full: going on in {}", logs[self.at].display(), log.display());
                (self.store, self.at) = (Some(store), index);
                return Ok(());
            }
        }
        self.at = logs.len() - 1;
        let why =
            format!("ref {}: each LOG is full: create one more, and name it as the last", Refusal::LogFull.number());
        Err(self.stop(asked, &why))
    }

    /// Why the writing ends at the next read, and how far it has come.
    fn stop(&self, asked: &Asked, why: &str) -> Failure {
        let read = self.named(std::slice::from_ref(asked));
        Failure::File(self.writing.logs[self.at].clone(), format!("{read}: {why}; {}", self.reached()))
    }

    fn reached(&self) -> String {
        let resume = match &self.writing.reads {
            Reads::Fastq(_) => "; to go on, give the same command with --resume",
            _ => "",
        };
        match &self.last {
            None => format!("this call has stored nothing{resume}"),
            Some((name, at)) => {
                let unit = self.unit[usize::from(self.stored != 1)];
                format!(
                    "this call has stored {} {unit}, the last is {name} at {}{resume}",
                    self.stored,
                    Answer::from(*at)
                )
            }
        }
    }

    /// What the next read is answered under: its name, or its number.
    fn name(&self, asked: &Asked) -> String {
        asked.note.clone().unwrap_or_else(|| self.next.to_string())
    }

    /// The next reads, in a message.
    fn named(&self, asked: &[Asked]) -> String {
        match asked {
            [Asked { note: Some(name), .. }] => format!("{} {}, {name}", self.unit[0], self.next),
            [_] => format!("{} {}", self.unit[0], self.next),
            _ => format!("{} {} to {}", self.unit[1], self.next, self.next + asked.len() as u64 - 1),
        }
    }
}

/// How many entries the log has room for, where the client is writing. A log that is full takes no step of it.
fn room_in(log: &Path, store: &mut Store, client: u64) -> Result<u64, Failure> {
    let latest = store.latest().map_err(|error| Failure::of_reading(log, error))?;
    let view = latest.view().map_err(|error| Failure::of_reading(log, error))?;
    let Some(stage) = view.client(client).map(|client| client.stage) else {
        return Err(Failure::of_reading(log, Refusal::UnknownClient.into()));
    };
    let room = view.capacity().words() as u64 - view.entry_count();
    if room > 0 && stage != Stage::Writing {
        let why = format!("client {client} is {} there, and has to be writing", stage.name());
        let log_name = log.display();
        return Err(Failure::File(
            log.into(),
            format!("{why}: 'cindrolf advise {log_name} {client}' names its next step"),
        ));
    }
    Ok(room)
}
