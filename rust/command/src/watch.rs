//! `watch`: the tables of a log on a terminal, drawn again when it changes, or else a line for each new row.

use crate::asked::asked;
use crate::failure::Failure;
use crate::printable::printable;
use crate::screen::Screen;
use crate::show;
use crate::signals::Signals;
use crate::time::utc;
use cindrolf::{Kind, Refusal};
use std::io::IsTerminal;
use std::path::Path;
use std::time::{Duration, Instant};
use store::{Change, Error, JournalRow, Replay, Store, Told};

/// The shortest time from one look to the next.
const REST: Duration = Duration::from_millis(200);

/// Watches a log until a signal ends it.
pub fn watch(file: &Path) -> Result<(), Failure> {
    let signals = Signals::catch().map_err(Failure::Input)?;
    let mut watched = Watched::open(file)?;
    if std::io::stdout().is_terminal() {
        watched.draw(&signals)?
    } else {
        watched.print(&signals)?
    }
    drop(watched);
    signals.end();
    Ok(())
}

/// A log, and its rows so far as the library has taken them here.
struct Watched<'a> {
    file: &'a Path,
    store: Store,
    replay: Replay,
    rows: i64,
    /// The last row that was refused in its place, as it is shown.
    refused: Option<String>,
}

impl<'a> Watched<'a> {
    fn open(file: &'a Path) -> Result<Self, Failure> {
        let mut store = crate::open(file)?;
        let replay = store.latest().and_then(Replay::of).map_err(|error| Failure::of_reading(file, error))?;
        let mut watched = Watched { file, store, replay, rows: 0, refused: None };
        watched.go_on()?;
        Ok(watched)
    }

    /// Takes the rows that came, and gives a line for each.
    fn go_on(&mut self) -> Result<String, Failure> {
        let Watched { store, replay, rows, refused, .. } = self;
        let mut lines = String::new();
        // The store itself has to know of them as well, to tell when there are more.
        store.latest().map_err(|error| Failure::of_reading(self.file, error))?;
        let taken = store.each_row_from(*rows + 1, |row| {
            let told = replay.take(&row.change)?;
            *rows = row.number;
            lines += &line(&row, told);
            if let Err(refusal) = told {
                *refused = Some(in_words(&row, refusal)?);
            }
            Ok(())
        });
        taken.map(|()| lines).map_err(|error| Failure::of_reading(self.file, error))
    }

    /// The tables on a terminal.
    fn draw(&mut self, signals: &Signals) -> Result<(), Failure> {
        let mut screen = Screen::begin().map_err(Failure::Output)?;
        while !signals.came() {
            let began = Instant::now();
            self.go_on()?;
            let tables = show::text(self.file, &mut self.store)?;
            let refused = self.refused.as_deref().unwrap_or_default();
            screen.show(&format!("{refused}{tables}")).map_err(Failure::Output)?;
            self.wait(signals, began, || screen.has_other_size())?;
        }
        Ok(())
    }

    /// A line for each row that comes.
    fn print(&mut self, signals: &Signals) -> Result<(), Failure> {
        eprintln!("cindrolf: {} has {} rows; a line follows for each that comes", self.file.display(), self.rows);
        while !signals.came() {
            let began = Instant::now();
            let lines = self.go_on()?;
            if !lines.is_empty() {
                crate::print(&lines)?;
            }
            self.wait(signals, began, || false)?;
        }
        Ok(())
    }

    /// Waits for rows that were not taken here, for a signal, or for something else. A look that took long is followed by
    /// a rest as long.
    fn wait(&mut self, signals: &Signals, began: Instant, other: impl Fn() -> bool) -> Result<(), Failure> {
        let mut rest = REST.saturating_sub(began.elapsed()).max(began.elapsed());
        loop {
            if signals.pause(rest).map_err(Failure::Input)? || other() {
                return Ok(());
            }
            let changed = self.store.changed(Instant::now()).map_err(|error| Failure::of_reading(self.file, error))?;
            if changed || self.store.last_row().is_none_or(|last| last.number > self.rows) {
                return Ok(());
            }
            rest = REST;
        }
    }
}

/// A row's number, when it was stored and by whom, what it asks for and its reply.
fn line(row: &JournalRow<'_>, told: Told) -> String {
    let reply = match told {
        Ok(answer) => answer.to_string(),
        Err(refusal) => format!("ref {}", refusal.number()),
    };
    format!("{} {}: {reply}\n", whence(row), asked(&row.change))
}

/// A row by its number, when it was stored, and by which process.
fn whence(row: &JournalRow<'_>) -> String {
    let time = row.time.map_or("-".into(), utc);
    let process = row.process.map_or("-".into(), |process| printable(process.as_bytes()));
    format!("{} {time} {process}", row.number)
}

/// A row that was refused, and why, above the tables. Marks and rights have no sentence of their own.
fn in_words(row: &JournalRow<'_>, refusal: Refusal) -> Result<String, Error> {
    let sentence = match &row.change {
        Change::Step(client, step) => refusal.sentence(step.kind(), *client)?,
        Change::WriteScores(client, _) => refusal.sentence(Kind::Write, *client)?,
        change => format!("{}: {refusal}", asked(change)),
    };
    Ok(format!("refused row   {}\n              {sentence}\n\n", whence(row)))
}
