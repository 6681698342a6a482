//! Controllers in other languages, as processes that get reads and report what became of them.
//!
//! A controller gets one value a line, and prints `stored V as entry E place P` or `refused V at row R: SENTENCE`. The
//! audit reads the notes that are made here. A controller may be killed at any moment; the notes stay.

use crate::notes::{Note, Notes, Refused};
use crate::signals::{SIGCONT, SIGSTOP, SIGTERM, send};
use cindrolf::{Kind, calls};
use std::io::{BufRead, BufReader, Write};
use std::path::{Path, PathBuf};
use std::process::{Child, ChildStdin, ChildStdout, Command, Stdio};
use std::sync::mpsc::{Receiver, channel};
use std::time::{Duration, Instant};

/// How long a controller may take to end.
const PATIENCE: Duration = Duration::from_secs(20);

/// A controller of a language, which is also the client of its number.
pub struct Controller {
    command: Vec<String>,
    number: u64,
    notes: Notes,
    /// The next value that it is given.
    value: u64,
    /// The log that it is at work on, with its file, and the process that is.
    work: Option<(u64, PathBuf, Work)>,
    /// How many of its reads were stored.
    pub stored: u64,
}

struct Work {
    child: Child,
    input: ChildStdin,
    lines: Receiver<String>,
    /// The value that it has no answer to, and the rows that were known when it was given.
    asked: Option<(u64, i64)>,
}

/// The lines of a process, each as it comes. The end of one that was killed is left out.
fn lines_of(output: ChildStdout) -> Receiver<String> {
    let (sender, lines) = channel();
    std::thread::spawn(move || {
        let (mut reader, mut line) = (BufReader::new(output), String::new());
        while reader.read_line(&mut line).is_ok_and(|count| count > 0) && line.ends_with('\n') {
            if sender.send(std::mem::take(&mut line)).is_err() {
                return;
            }
        }
    });
    lines
}

fn text(error: impl std::fmt::Display) -> String {
    error.to_string()
}

impl Controller {
    /// A controller that this command starts, with the log and its client number after it.
    pub fn new(folder: &Path, number: u64, command: &[String]) -> Result<Controller, String> {
        let notes = Notes::open(folder, number).map_err(text)?;
        Ok(Controller { command: command.to_vec(), number, notes, value: number << 48, work: None, stored: 0 })
    }

    /// Starts it on a log.
    pub fn start(&mut self, log: u64, file: &Path) -> Result<(), String> {
        self.notes.add(Note::Started).map_err(text)?;
        let mut command = Command::new(&self.command[0]);
        command.args(&self.command[1..]).arg(file).arg(self.number.to_string());
        let spawned = command.stdin(Stdio::piped()).stdout(Stdio::piped()).spawn();
        let mut child = spawned.map_err(|error| format!("cannot start {}: {error}", self.command.join(" ")))?;
        let (input, output) = child.stdin.take().zip(child.stdout.take()).expect("both are pipes");
        self.work = Some((log, file.into(), Work { child, input, lines: lines_of(output), asked: None }));
        Ok(())
    }

    /// Notes what it has told, and gives it the next read where it has none. `known` are the rows that are known by now. It must
    /// not end by itself.
    pub fn tend(&mut self, known: i64) -> Result<(), String> {
        let Some((log, file, mut work)) = self.work.take() else { return Ok(()) };
        while let Ok(line) = work.lines.try_recv() {
            self.told(log, &mut work, &line)?;
        }
        if let Some(status) = work.child.try_wait().map_err(text)? {
            return Err(format!("{} ended by itself with {status}", self.command.join(" ")));
        }
        if work.asked.is_none() {
            let value = self.value;
            self.value += 1;
            self.notes.add(Note::Asked { log, value }).map_err(text)?;
            work.asked = Some((value, known));
            // One that ends just now is seen the next time.
            let _ = writeln!(work.input, "{value}");
        }
        self.work = Some((log, file, work));
        Ok(())
    }

    /// Notes a line.
    fn told(&mut self, log: u64, work: &mut Work, line: &str) -> Result<(), String> {
        let wrong = || format!("{} printed '{line}'", self.command.join(" "));
        let (asked, known) = work.asked.unwrap_or((0, 0));
        let note = parse(line, self.number, log, known).ok_or_else(wrong)?;
        self.notes.add(note).map_err(text)?;
        match note {
            Note::Stored { value, .. } if work.asked.is_some() && value == asked => {
                work.asked = None;
                self.stored += 1;
            }
            // It goes on with the same read.
            Note::Refused(_) if work.asked.is_some() => {
                self.notes.add(Note::Asked { log, value: asked }).map_err(text)?
            }
            Note::Refused(_) => {}
            _ => return Err(wrong()),
        }
        Ok(())
    }

    /// Kills it at this moment, and starts it again.
    pub fn kill_and_start(&mut self) -> Result<(), String> {
        let at = self.work.as_ref().map(|(log, file, _)| (*log, file.clone()));
        self.kill()?;
        at.map_or(Ok(()), |(log, file)| self.start(log, &file))
    }

    /// Stops it while this is done, or for the longest time if that is over earlier. It keeps all that it holds.
    pub fn while_stopped<T>(&self, longest: Duration, done: impl FnOnce() -> Result<T, String>) -> Result<T, String> {
        let Some((.., Work { child, .. })) = &self.work else { return done() };
        send(child, SIGSTOP).map_err(text)?;
        std::thread::scope(|scope| {
            let (is_done, when_done) = channel::<()>();
            let goes_on = scope.spawn(move || {
                let _ = when_done.recv_timeout(longest);
                send(child, SIGCONT).map_err(text)
            });
            let result = done();
            drop(is_done);
            goes_on.join().expect("it sends a signal")?;
            result
        })
    }

    /// Kills it at this moment, and notes what it had told until then.
    pub fn kill(&mut self) -> Result<(), String> {
        let Some((log, _, mut work)) = self.work.take() else { return Ok(()) };
        work.child.kill().and_then(|()| work.child.wait()).map_err(text)?;
        for line in work.lines.iter().collect::<Vec<_>>() {
            self.told(log, &mut work, &line)?;
        }
        Ok(())
    }

    /// Asks it to end. It has to end well, and soon.
    pub fn end(&mut self) -> Result<(), String> {
        let Some((log, _, mut work)) = self.work.take() else { return Ok(()) };
        send(&work.child, SIGTERM).map_err(text)?;
        let until = Instant::now() + PATIENCE;
        let status = loop {
            if let Some(status) = work.child.try_wait().map_err(text)? {
                break status;
            }
            if Instant::now() > until {
                let _ = work.child.kill();
                return Err(format!("{} does not end on a signal", self.command.join(" ")));
            }
            std::thread::sleep(Duration::from_millis(1));
        };
        for line in work.lines.iter().collect::<Vec<_>>() {
            self.told(log, &mut work, &line)?;
        }
        if status.success() { Ok(()) } else { Err(format!("{} ended with {status}", self.command.join(" "))) }
    }
}

impl Drop for Controller {
    fn drop(&mut self) {
        let _ = self.kill();
    }
}

/// A line of a controller as a note.
fn parse(line: &str, process: u64, log: u64, known: i64) -> Option<Note> {
    let line = line.strip_suffix('\n')?;
    if let Some(rest) = line.strip_prefix("stored ") {
        let (value, rest) = rest.split_once(" as entry ")?;
        let (entry, place) = rest.split_once(" place ")?;
        let at = Some((entry.parse().ok()?, place.parse().ok()?));
        return Some(Note::Stored { log, value: value.parse().ok()?, at });
    }
    let (value, rest) = line.strip_prefix("refused ")?.split_once(" at row ")?;
    let (row, sentence) = rest.split_once(": ")?;
    let said = calls::read_sentence(sentence.as_bytes()).ok()??;
    let value = if said.kind == Kind::Write { value.parse().ok()? } else { 0 };
    let (step, refusal, client) = (said.kind.number(), said.refusal.number(), said.client);
    // Only a handover names another.
    let own = client == process || said.kind == Kind::Name;
    own.then_some(Note::Refused(Refused { log, client, step, value, refusal, known, row: row.parse().ok()? }))
}

#[cfg(test)]
mod tests {
    use super::*;

    #[test]
    fn lines() {
        let stored = Note::Stored { log: 4, value: 7, at: Some((3, 1)) };
        assert_eq!(parse("stored 7 as entry 3 place 1\n", 0, 4, 2), Some(stored));
        let refused = Refused { log: 4, client: 1, step: 8, value: 7, refusal: 12, known: 2, row: 17 };
        let line = "refused 7 at row 17: write of client 1: another leader has fenced the ledger\n";
        assert_eq!(parse(line, 1, 4, 2), Some(Note::Refused(refused)));
        let none = ["stored 7 as entry 3 place 1", "stored 7\n", "\n", "refused 7 at row 17: no sentence\n"];
        assert!(none.iter().all(|line| parse(line, 0, 4, 2).is_none()));
        // A step of another client.
        assert_eq!(parse(line, 0, 4, 2), None);
    }
}
