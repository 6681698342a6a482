//! The frames of a session: each line taken on the proved log, its reply, and what it has changed.

use crate::escape::visible;
use crate::rows::Row;
use crate::scene::{Change, Drawn, Scene};
use cindrolf::{Answer, Error, Kind, Log, LogRef, Refusal, Stage, Step, client_of, value_of};
use session::{Line, NoSession, Session, reply, total_lines};

/// How a line went.
#[derive(Clone, Copy, Debug, PartialEq, Eq)]
pub enum Outcome {
    /// The step was taken.
    Taken,
    /// Another client was faster.
    Behind,
    /// The step was refused.
    Refused,
    /// The line is no step.
    BadLine,
}

/// A line of the session or a row of the log, and what it led to.
#[derive(Clone, Debug, PartialEq, Eq)]
pub struct Frame {
    /// The line, with all that is not printable made visible.
    pub line: String,
    /// The reply, as the session program prints it.
    pub reply: String,
    /// How it went.
    pub outcome: Outcome,
    /// The client that the line names.
    pub client: Option<u64>,
    /// The line without its client, where that is short, and else its letter alone.
    pub mark: String,
    /// The refusal's sentence, or what has changed.
    pub text: String,
    /// What has changed.
    pub changes: Vec<Change>,
    /// What rows that are not shown have changed before it. A session has none.
    pub hidden: Vec<Change>,
    /// The row that it is, in a log.
    pub row: Option<Row>,
}

/// A whole session, or rows of a log.
#[derive(Clone, Debug, PartialEq, Eq)]
pub struct Frames {
    /// Which rows they are, in a log.
    pub part: Option<String>,
    /// The log before the first step.
    pub start: Scene,
    /// What leads to it from a log without ledgers.
    pub begin: Vec<Change>,
    /// Each line after the first.
    pub frames: Vec<Frame>,
    /// The log after the last step.
    pub end: Scene,
    /// The entries of each ledger, from ledger 1.
    pub entries: Vec<Vec<Drawn>>,
    /// The chain, the total and the rounded total, as the two programs print them.
    pub results: [String; 3],
}

/// Why there are no frames.
#[derive(Clone, Copy, Debug, PartialEq, Eq)]
pub enum NoFrames {
    /// The input is no session.
    NoSession(NoSession),
    /// The archive is of another version than the crate.
    Library(Error),
}

impl From<Error> for NoFrames {
    fn from(error: Error) -> Self {
        NoFrames::Library(error)
    }
}

impl Frames {
    /// The frames of this input.
    pub fn of(input: &[u8]) -> Result<Self, NoFrames> {
        let session = Session::read(input).map_err(NoFrames::NoSession)?;
        let mut log = Log::fresh(session.client_count)?;
        let start = Scene::of(log.view());
        let (mut frames, mut scene) = (Vec::new(), start.clone());
        for line in &session.lines {
            frames.push(frame(line, &mut log, &mut scene)?);
        }
        let (begin, results) = (Vec::new(), results(log.as_ref())?);
        Ok(Frames { part: None, entries: entries(&begin, &frames, &scene), start, begin, frames, end: scene, results })
    }
}

/// The entries of each ledger at the end.
pub(crate) fn entries(begin: &[Change], frames: &[Frame], end: &Scene) -> Vec<Vec<Drawn>> {
    let mut entries = vec![Vec::new(); end.ledgers.len()];
    let of_frames = frames.iter().flat_map(|frame| frame.hidden.iter().chain(&frame.changes));
    for change in begin.iter().chain(of_frames) {
        if let Change::Stored(entry) = change {
            entries[entry.ledger as usize - 1].push(*entry);
        }
    }
    entries
}

/// Takes the line on the log, and leaves the scene as it is then.
fn frame(line: &Line, log: &mut Log, scene: &mut Scene) -> Result<Frame, Error> {
    let mut frame = Frame {
        line: visible(line.bytes),
        reply: "bad line".into(),
        outcome: Outcome::BadLine,
        client: None,
        mark: String::new(),
        text: String::new(),
        changes: Vec::new(),
        hidden: Vec::new(),
        row: None,
    };
    let Some((client, step)) = line.step() else {
        frame.text = if line.ended { "" } else { "the last line has no line end" }.into();
        return Ok(frame);
    };
    let told = match log.take(client, step) {
        Err(Error::Refused(refusal)) => Err(refusal),
        taken => Ok(taken?),
    };
    frame.changes = moved(scene, log.as_ref())?;
    (frame.client, frame.mark) = (Some(client), mark(step));
    frame.tell(client, step, told, scene)?;
    Ok(frame)
}

/// What has changed since this scene, which is left as the log is now.
pub(crate) fn moved(scene: &mut Scene, log: LogRef<'_>) -> Result<Vec<Change>, Error> {
    let view = log.view()?;
    let after = Scene::of(view);
    let changes = scene.changes(&after, view);
    *scene = after;
    Ok(changes)
}

impl Frame {
    /// Says how a client's step was answered, of which the changes are known.
    pub(crate) fn tell(
        &mut self,
        client: u64,
        step: Step,
        told: Result<Answer, Refusal>,
        scene: &Scene,
    ) -> Result<(), Error> {
        let changed = |reason, changes: &[Change]| sentence(client, step, reason, changes);
        self.reply = reply(told.map_err(Error::Refused))?;
        (self.outcome, self.text) = match told {
            Err(refusal) => (Outcome::Refused, refusal.sentence(step.kind(), client)?),
            Ok(Answer::Behind) => (Outcome::Behind, changed(Some("another client was faster"), &self.changes)),
            Ok(Answer::WasClosed) => (Outcome::Taken, changed(Some("the ledger was closed already"), &self.changes)),
            Ok(_) => (Outcome::Taken, changed(None, &self.changes)),
        };
        if told.is_err() {
            self.changes.extend(blocked(client, step, scene));
        }
        Ok(())
    }

    /// The number by which it is shown: its row's, or its place in the session.
    pub fn number(&self, place: usize) -> u64 {
        self.row.as_ref().map_or(place as u64, |row| row.number)
    }
}

/// The entry that a refused write would have stored, where its client writes to a ledger.
fn blocked(client: u64, step: Step, scene: &Scene) -> Option<Change> {
    let standing = scene.clients.get(client as usize).filter(|standing| standing.stage == Stage::Writing)?;
    let entry = Drawn { ledger: standing.ledger?, client, value: step.value() };
    (step.kind() == Kind::Write).then_some(Change::Blocked(entry))
}

/// A step that was taken, in the form of a sentence: the step and its client, a reason, and what has changed.
fn sentence(client: u64, step: Step, reason: Option<&str>, changes: &[Change]) -> String {
    let parts: Vec<_> = reason.map(String::from).into_iter().chain(changes.iter().filter_map(Change::text)).collect();
    format!("{} of client {client}: {}", step.kind(), parts.join("; "))
}

pub(crate) fn mark(step: Step) -> String {
    let (letter, value) = (step.kind().letter(), step.value());
    if step.kind() == Kind::Write && value < 1000 { format!("{letter} {value}") } else { letter.into() }
}

/// The chain, the total and the rounded total.
pub(crate) fn results(log: LogRef<'_>) -> Result<[String; 3], Error> {
    let mut output = vec![0; log.entries().len()];
    let count = log.read_chain(&mut output)?;
    let chain: String =
        output[..count].iter().map(|&word| format!(" {}:{}", client_of(word), value_of(word))).collect();
    let [total, rounded] = total_lines(log.run_total()?);
    Ok([format!("chain{chain}"), total, rounded])
}
