//! The frames of a log's rows: the answer of each at its place, and what it has changed.

use crate::frames::{Frame, Frames, Outcome, entries, mark, moved, results};
use crate::scene::{Change, Scene};
use cindrolf::{Answer, Error, Log, LogRef, Refusal, Step};
use session::reply;

/// What is shown of a row beside its step.
#[derive(Clone, Debug, PartialEq, Eq)]
pub struct Row {
    /// Its number.
    pub number: u64,
    /// The day on which it was stored and the time of that day, in UTC, if they are known.
    pub time: Option<[String; 2]>,
    /// The process that asked, if that is known.
    pub process: Option<String>,
    /// What is noted of it.
    pub note: Option<String>,
}

/// What a row asks for.
pub enum Asked<'a> {
    /// A client's step.
    Step(u64, Step),
    /// A client's write of scores.
    Scores(u64, &'a [u16]),
    /// Something else, of a client or of none: what it comes to where it is not refused.
    Other(Option<u64>, String),
}

/// The frames of rows, of which more may come.
pub struct Rows {
    start: Scene,
    begin: Vec<Change>,
    frames: Vec<Frame>,
    scene: Scene,
    hidden: Vec<Change>,
}

impl Rows {
    /// The frames begin with this log.
    pub fn from(log: LogRef<'_>) -> Result<Self, Error> {
        let view = log.view()?;
        let start = Scene::of(view);
        let begin = start.made_of(view);
        Ok(Rows { scene: start.clone(), start, begin, frames: Vec::new(), hidden: Vec::new() })
    }

    /// Rows that are not shown have left the log like this. What they have changed comes with the next frame.
    pub fn skip(&mut self, log: LogRef<'_>) -> Result<(), Error> {
        self.hidden.extend(moved(&mut self.scene, log)?);
        Ok(())
    }

    /// Adds a row, in the words of this line, which was answered so and has left the log like this.
    pub fn add(
        &mut self,
        row: Row,
        line: String,
        asked: &Asked<'_>,
        told: Result<Answer, Refusal>,
        log: LogRef<'_>,
    ) -> Result<(), Error> {
        let mut frame = Frame {
            line,
            reply: reply(told.map_err(Error::Refused))?,
            outcome: if told.is_err() { Outcome::Refused } else { Outcome::Taken },
            client: None,
            mark: String::new(),
            text: String::new(),
            changes: moved(&mut self.scene, log)?,
            hidden: std::mem::take(&mut self.hidden),
            row: Some(row),
        };
        match asked {
            &Asked::Step(client, step) => {
                (frame.client, frame.mark) = (Some(client), mark(step));
                frame.tell(client, step, told, &self.scene)?;
            }
            &Asked::Scores(client, scores) => {
                (frame.client, frame.mark) = (Some(client), mark(LONG_WRITE));
                let value = value(scores);
                frame.tell(client, Step::write(value.unwrap_or(0)), told, &self.scene)?;
                // Scores that no log takes have no value.
                frame.changes.retain(|change| value.is_some() || !matches!(change, Change::Blocked(_)));
            }
            Asked::Other(client, done) => {
                // The lane has room for its first word.
                frame.mark = frame.line.split(' ').next().unwrap_or_default().into();
                frame.client = *client;
                frame.text = told.map_or_else(|refusal| refusal.to_string(), |_| done.clone());
            }
        }
        self.frames.push(frame);
        Ok(())
    }

    /// All frames, of which the last has left the log like this. They are these rows, in words.
    pub fn finish(self, part: String, log: LogRef<'_>) -> Result<Frames, Error> {
        let Rows { start, begin, frames, scene, .. } = self;
        let entries = entries(&begin, &frames, &scene);
        Ok(Frames { part: Some(part), start, begin, frames, end: scene, entries, results: results(log)? })
    }
}

/// A write whose value has no room in a lane.
const LONG_WRITE: Step = Step::write(u64::MAX);

/// The value that a write of these scores stores, or would have stored: the library's, on a log of its own.
fn value(scores: &[u16]) -> Option<u64> {
    let mut log = Log::fresh(1).ok()?;
    for step in [Step::BECOME, Step::FETCH, Step::CREATE, Step::APPEND] {
        let _ = log.take(0, step).ok()?;
    }
    let number = log.write_scores(0, scores).ok()?.number;
    log.view().entry(number).map(|entry| entry.value)
}
