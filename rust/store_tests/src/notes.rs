//! What a process notes of its steps in its own file, to be read after it was killed.

use std::collections::BTreeMap;
use std::fs::{File, OpenOptions};
use std::io::{self, Write};
use std::path::{Path, PathBuf};

/// A line of the notes.
#[derive(Clone, Copy, Debug, PartialEq, Eq)]
pub enum Note {
    /// The process was started.
    Started,
    /// It is about to write this value to this log.
    Asked {
        /// The log.
        log: u64,
        /// The value, which no process writes twice.
        value: u64,
    },
    /// The write was answered by this entry number and place. Both are none where it was noted before the answer.
    Stored {
        /// The log.
        log: u64,
        /// The value.
        value: u64,
        /// The entry number and the place in its ledger.
        at: Option<(u64, u64)>,
    },
    /// The write failed, and the process was told that it is not stored.
    NotStored {
        /// The log.
        log: u64,
        /// The value.
        value: u64,
    },
    /// A step was refused.
    Refused(Refused),
    /// It closed this ledger, which then held so many entries with this sum over their words.
    Closed {
        /// The log.
        log: u64,
        /// The ledger.
        ledger: u64,
        /// How many entries it held.
        entries: u64,
        /// [`sum`] of their words.
        sum: u64,
    },
}

/// A step that was refused.
#[derive(Clone, Copy, Debug, PartialEq, Eq)]
pub struct Refused {
    /// The log.
    pub log: u64,
    /// The client.
    pub client: u64,
    /// The step's number, 0 to 9.
    pub step: u64,
    /// The value of a write; 0 for another step.
    pub value: u64,
    /// The refusal's number.
    pub refusal: u64,
    /// The last row that any process was known to have been answered before this one asked.
    pub known: i64,
    /// The last row of which it was decided, as the store says.
    pub row: i64,
}

/// A number that tells lists of words apart.
pub fn sum(words: &[u64]) -> u64 {
    words.iter().fold(words.len() as u64, |sum, word| (sum ^ word).wrapping_mul(0x9E37_79B9_7F4A_7C15).rotate_left(23))
}

/// The notes of one process, to add to.
pub struct Notes(File);

/// The file of a process's notes.
pub fn file(folder: &Path, process: u64) -> PathBuf {
    folder.join(format!("notes-{process:02}"))
}

impl Notes {
    /// Goes on with the notes of a process.
    pub fn open(folder: &Path, process: u64) -> io::Result<Notes> {
        OpenOptions::new().create(true).append(true).open(file(folder, process)).map(Notes)
    }

    /// Adds a line. It is there once this returns, even if the process is killed then. A process that is killed meanwhile
    /// may leave a part of it, which lacks the semicolon.
    pub fn add(&mut self, note: Note) -> io::Result<()> {
        let line = match note {
            // What was left of a line before it is ended.
            Note::Started => "\nstarted;\n".to_owned(),
            Note::Asked { log, value } => format!("asked {log} {value};\n"),
            Note::Stored { log, value, at: Some((entry, place)) } => {
                format!("stored {log} {value} {entry} {place};\n")
            }
            Note::Stored { log, value, at: None } => format!("stored {log} {value};\n"),
            Note::NotStored { log, value } => format!("failed {log} {value};\n"),
            Note::Refused(Refused { log, client, step, value, refusal, known, row }) => {
                format!("refused {log} {client} {step} {value} {refusal} {known} {row};\n")
            }
            Note::Closed { log, ledger, entries, sum } => format!("closed {log} {ledger} {entries} {sum};\n"),
        };
        self.0.write_all(line.as_bytes())
    }

    /// The same notes once more.
    pub fn again(&self) -> io::Result<Notes> {
        self.0.try_clone().map(Notes)
    }
}

/// All notes of a process. Part of a line may stand only where the process was killed, before it was started again or at
/// the end: what it would have said is not said.
pub fn read(folder: &Path, process: u64) -> io::Result<Vec<Note>> {
    let text = match std::fs::read_to_string(file(folder, process)) {
        Err(error) if error.kind() == io::ErrorKind::NotFound => String::new(),
        text => text?,
    };
    let (mut notes, mut part) = (Vec::new(), None);
    for line in text.lines().filter(|line| !line.is_empty()) {
        let note = line.strip_suffix(';').map(parse);
        match (note, part) {
            (Some(Some(Note::Started)), _) => (notes.push(Note::Started), part = None).0,
            (Some(Some(note)), None) => notes.push(note),
            (None, None) => part = Some(line),
            (_, part) => return Err(io::Error::other(format!("the notes have '{}'", part.unwrap_or(line)))),
        }
    }
    Ok(notes)
}

fn parse(line: &str) -> Option<Note> {
    let mut words = line.split(' ');
    let kind = words.next()?;
    let numbers: Vec<u64> = words.map(|word| word.parse().ok()).collect::<Option<_>>()?;
    match (kind, numbers[..].as_ref()) {
        ("started", []) => Some(Note::Started),
        ("asked", &[log, value]) => Some(Note::Asked { log, value }),
        ("stored", &[log, value, entry, place]) => Some(Note::Stored { log, value, at: Some((entry, place)) }),
        ("stored", &[log, value]) => Some(Note::Stored { log, value, at: None }),
        ("failed", &[log, value]) => Some(Note::NotStored { log, value }),
        ("refused", &[log, client, step, value, refusal, known, row]) => {
            let [known, row] = [known, row].map(|row| row as i64);
            Some(Note::Refused(Refused { log, client, step, value, refusal, known, row }))
        }
        ("closed", &[log, ledger, entries, sum]) => Some(Note::Closed { log, ledger, entries, sum }),
        _ => None,
    }
}

/// The notes of all processes, by what they say.
#[derive(Default)]
pub struct Collected {
    /// What was answered: by its value, the log and where it is stored.
    pub stored: BTreeMap<u64, (u64, Option<(u64, u64)>)>,
    /// The values that a process asked for last before it was killed, with the log.
    pub last: BTreeMap<u64, u64>,
    /// The ledgers that were closed: log, ledger, entries and sum.
    pub closed: Vec<(u64, u64, u64, u64)>,
    /// The steps that were refused.
    pub refused: Vec<Refused>,
}

impl Collected {
    /// The notes of so many processes.
    pub fn read(folder: &Path, processes: u64) -> io::Result<Collected> {
        let mut all = Collected::default();
        for process in 0..processes {
            let mut open = None;
            for note in read(folder, process)? {
                match note {
                    Note::Started => all.last.extend(open.take()),
                    Note::Asked { log, value } => open = Some((value, log)),
                    Note::Stored { log, value, at } => {
                        all.stored.insert(value, (log, at));
                        open = None;
                    }
                    Note::NotStored { .. } => open = None,
                    Note::Refused(refused) => {
                        all.refused.push(refused);
                        open = None;
                    }
                    Note::Closed { log, ledger, entries, sum } => all.closed.push((log, ledger, entries, sum)),
                }
            }
            all.last.extend(open);
        }
        Ok(all)
    }
}

#[cfg(test)]
mod tests {
    use super::*;
    use crate::scratch::Scratch;

    #[test]
    fn parts_of_lines() {
        let room = Scratch::new();
        let notes = |text: &str| {
            std::fs::write(file(room.folder(), 0), text).unwrap();
            read(room.folder(), 0).ok()
        };
        let (started, asked) = (Note::Started, Note::Asked { log: 1, value: 23 });
        assert_eq!(notes("\nstarted;\nasked 1 23;\n"), Some(vec![started, asked]));
        // Where it was killed, what is left of a line says nothing.
        assert_eq!(notes("\nstarted;\nasked 1 2"), Some(vec![started]));
        assert_eq!(notes("\nstarted;\nasked 1 2\nstarted;\nasked 1 23;\n"), Some(vec![started, started, asked]));
        assert_eq!(notes("\nstarted;\nstored 1 23\nasked 1 23;\n"), None);
        assert_eq!(notes("asked 1;\n"), None);
    }
}
