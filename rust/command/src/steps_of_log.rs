//! The rows of a log as frames: each taken once more by the library, under the rights at that row.

use crate::asked::{asked, letters};
use crate::failure::Failure;
use crate::time::utc;
use limits::PAGE_ROW_LIMIT;
use std::path::Path;
use store::{Change, Error, JournalRow, Replay, Store};
use trace::escape::visible;
use trace::frames::Frames;
use trace::rows::{Asked, Row, Rows};

/// Which rows are to be shown.
#[derive(Clone, Copy, Debug, Default, PartialEq, Eq)]
pub struct Part {
    /// Those of this client alone.
    pub client: Option<u64>,
    /// From the row of this number on.
    pub from: Option<u64>,
    /// Up to the row of this number.
    pub to: Option<u64>,
}

/// The rows that a part comes to in a log.
#[derive(Default)]
struct Found {
    /// How many.
    count: usize,
    /// The last of them.
    last: u64,
    /// How many rows the log has.
    rows: u64,
}

impl Part {
    /// Whether it is every row.
    pub fn is_all(self) -> bool {
        self == Part::default()
    }

    fn has(self, number: u64, change: &Change) -> bool {
        let client = match change {
            Change::Step(client, _) | Change::WriteScores(client, _) | Change::SetRights(client, _) => Some(*client),
            Change::SetMark(_) | Change::DropMark(_) => None,
        };
        self.from.is_none_or(|from| from <= number)
            && self.to.is_none_or(|to| number <= to)
            && (self.client.is_none() || self.client == client)
    }

    /// It in words, for a log of so many rows.
    fn words(self, rows: u64) -> String {
        let span = match (self.from, self.to.filter(|&to| to < rows)) {
            _ if rows == 0 => "No rows".into(),
            (None, None) => format!("All {rows} rows"),
            (from, to) => format!("Rows {} to {} of {rows}", from.unwrap_or(1), to.unwrap_or(rows)),
        };
        self.client.map_or(span.clone(), |client| format!("{span}, those of client {client}"))
    }
}

/// The frames of a log, or why there are none.
pub fn frames(file: &Path, part: Part) -> Result<Frames, Failure> {
    let mut store = crate::open(file)?;
    let failed = |error| Failure::of_reading(file, error);
    let found = find(&mut store, part).map_err(failed)?;
    let why = match found {
        Found { count: 0, rows, .. } if rows > 0 || !part.is_all() => {
            format!("none of its {rows} rows is asked for: change --client, --from or --to")
        }
        Found { count, .. } if count > PAGE_ROW_LIMIT => format!(
            "these are {count} rows, and a page shows {PAGE_ROW_LIMIT}: choose some with --from ROW and --to ROW, \
             or those of one client with --client CLIENT"
        ),
        found => return drawn(&mut store, part, &found).map_err(failed),
    };
    Err(Failure::File(file.into(), why))
}

/// Looks for the rows, so that a log that is too long is not drawn first.
fn find(store: &mut Store, part: Part) -> Result<Found, Error> {
    let mut found = Found::default();
    store.each_row(|row| {
        found.rows = row.number as u64;
        if part.has(found.rows, &row.change) {
            found.last = found.rows;
            found.count += 1;
        }
        Ok(())
    })?;
    Ok(found)
}

/// Takes the rows up to the last that is shown. Those before the first make the log with which the frames begin.
fn drawn(store: &mut Store, part: Part, found: &Found) -> Result<Frames, Error> {
    let mut replay = Replay::of(store.latest()?)?;
    let mut rows = None;
    let first = part.from.unwrap_or(1);
    store.each_row(|row| {
        let number = row.number as u64;
        if number > found.last {
            return Ok(());
        }
        if number >= first && rows.is_none() {
            rows = Some(Rows::from(replay.log())?);
        }
        let shown = rows.as_mut().filter(|_| part.has(number, &row.change));
        let Some(rows) = shown else { return replay.take(&row.change).map(drop) };
        rows.skip(replay.log())?;
        let told = replay.take(&row.change)?;
        rows.add(beside(&row), visible(asked(&row.change).as_bytes()), &of(&row.change, &replay), told, replay.log())?;
        Ok(())
    })?;
    let rows = rows.map_or_else(|| Rows::from(replay.log()), Ok)?;
    Ok(rows.finish(part.words(found.rows), replay.log())?)
}

/// What is shown of a row beside its step.
fn beside(row: &JournalRow<'_>) -> Row {
    let time = row.time.map(utc).and_then(|time| {
        let (day, time) = time.split_once('T')?;
        Some([day.to_owned(), time.trim_end_matches('Z').to_owned()])
    });
    let text = |text: Option<&str>| text.map(|text| visible(text.as_bytes()));
    Row { number: row.number as u64, time, process: text(row.process), note: text(row.note) }
}

/// What a row asks for, which was taken: what it comes to is told of the log as it is now.
fn of<'a>(change: &'a Change, replay: &Replay) -> Asked<'a> {
    match change {
        Change::Step(client, step) => Asked::Step(*client, *step),
        Change::WriteScores(client, scores) => Asked::Scores(*client, scores),
        Change::SetMark(_) => {
            let entries = replay.log().view().map_or(0, |view| view.entry_count());
            Asked::Other(None, format!("the mark is set at {entries} entries"))
        }
        Change::DropMark(_) => Asked::Other(None, "the mark is dropped".into()),
        Change::SetRights(client, word) => {
            let lacks: Vec<_> = letters(!word).chars().map(String::from).collect();
            let has = if lacks.is_empty() { "every right".into() } else { format!("no right to {}", lacks.join(" ")) };
            Asked::Other(Some(*client), format!("client {client} has {has} from now on"))
        }
    }
}
