//! The rows of a log by columns, as in an archive.

use super::sections::{Reader, Writer};
use crate::journal::{EachRow, StoredRow};
use crate::replica::{Replica, Row};
use crate::request::{DROP_MARK, RULES, SET_MARK, SET_RIGHTS, WRITE_SCORES};
use crate::{Change, Error, Known, NOTE_LIMIT, PROCESS_LIMIT, ROW_LIMIT};
use cindrolf::{CLIENT_NUMBER_LIMIT, Capacity, Kind, MarkName, Step, VALUE_LIMIT};

/// In the place of a kind: the client and the number are too wide for a step word, and are words of their own.
const WIDE: u64 = 15;

/// The time of a row of which it is not known.
const NO_TIME: u64 = 1 << 63;

/// The columns of a log.
#[derive(Default)]
pub(super) struct Columns {
    /// The version of the rules, how many clients and how many entry words the log has, how many rows there are, and the
    /// two halves of the last one's chain value.
    head: [u64; 6],
    /// A step word for each row; one of a kind above 9 where its step is none of a plan.
    steps: Vec<u64>,
    /// The client and the number of each wide step.
    wide: Vec<u64>,
    requests: Vec<u64>,
    parts: Vec<u64>,
    times: Vec<u64>,
    /// The place of the process in the list of names, from 1; 0 for none.
    processes: Vec<u64>,
    /// How long the note is, and 1; 0 for none.
    notes: Vec<u64>,
    /// How long each name of a process is.
    names: Vec<u64>,
    /// The names, one after the other, the notes, and the scores, two bytes each with the low one first.
    name_bytes: Vec<u8>,
    note_bytes: Vec<u8>,
    score_bytes: Vec<u8>,
    /// The names as they are looked for.
    known_names: Vec<String>,
}

/// A step by its kind, its client, and the one number that it has: a value, a name, a word of rights, or how many scores.
fn numbers(change: &Change) -> (u64, u64, u64) {
    let number = match change {
        Change::Step(_, step) => step.value(),
        Change::WriteScores(_, scores) => scores.len() as u64,
        Change::SetMark(name) | Change::DropMark(name) => name.word(),
        Change::SetRights(_, word) => *word,
    };
    (change.kind(), change.client().unwrap_or(0), number)
}

impl Columns {
    pub fn of_fresh(clients: u64, capacity: Capacity) -> Self {
        let mut columns = Columns::default();
        columns.set_last(Known::fresh(clients, capacity));
        columns.head[..3].copy_from_slice(&[RULES, clients, capacity.words() as u64]);
        columns
    }

    fn set_last(&mut self, known: Known) {
        let chain = u128::from_be_bytes(known.chain);
        self.head[3..].copy_from_slice(&[known.rows as u64, (chain >> 64) as u64, chain as u64]);
    }

    /// Adds a row.
    pub fn push(&mut self, stored: &StoredRow<'_>) -> Result<(), Error> {
        let row = stored.row;
        let (kind, client, number) = numbers(&row.change);
        if client <= CLIENT_NUMBER_LIMIT && number <= VALUE_LIMIT {
            self.steps.push(kind << 60 | client << 52 | number);
        } else {
            self.steps.push(WIDE << 60 | kind);
            self.wide.extend([client, number]);
        }
        if let Change::WriteScores(_, scores) = &row.change {
            self.score_bytes.extend(scores.iter().flat_map(|score| score.to_le_bytes()));
        }
        self.requests.push(row.id);
        self.parts.push(row.index);
        self.times.push(stored.time.map_or(NO_TIME, |time| time as u64));
        let process = stored.process.map_or(0, |name| self.place_of(name));
        self.processes.push(process);
        self.notes.push(stored.note.map_or(0, |note| note.len() as u64 + 1));
        self.note_bytes.extend(stored.note.unwrap_or_default().as_bytes());
        self.set_last(row.known);
        Ok(())
    }

    fn place_of(&mut self, name: &str) -> u64 {
        // Mostly the process of the row before.
        if let Some(at) = self.known_names.iter().rposition(|known| known == name) {
            return at as u64 + 1;
        }
        self.known_names.push(name.into());
        self.names.push(name.len() as u64);
        self.name_bytes.extend(name.as_bytes());
        self.known_names.len() as u64
    }

    /// The archive.
    pub fn bytes(&self) -> Result<Vec<u8>, Error> {
        let mut writer = Writer::new();
        writer.words(&self.head)?;
        let Columns { steps, wide, requests, parts, times, processes, notes, names, .. } = self;
        for column in [steps, wide, requests, parts, times, processes, notes, names] {
            writer.words(column)?;
        }
        for bytes in [&self.name_bytes, &self.note_bytes, &self.score_bytes] {
            writer.bytes(bytes);
        }
        Ok(writer.finish())
    }

    /// What an archive holds. If it is none, the text says why.
    pub fn of_bytes(archive: &[u8]) -> Result<Self, String> {
        let mut reader = Reader::new(archive)?;
        let columns = Columns::read(&mut reader).filter(|_| reader.is_at_end()).ok_or("its sections do not fit")?;
        let [rules, clients, words, rows, ..] = columns.head;
        if rules != RULES {
            return Err(format!("its steps go by version {rules} of the rules, and this program has version {RULES}"));
        }
        if Capacity::from_words(words as usize).is_none_or(|capacity| Replica::fresh(clients, capacity).is_err()) {
            return Err("it is of no log".into());
        }
        if rows > ROW_LIMIT as u64 {
            return Err(format!("it has {rows} rows, and a log takes {ROW_LIMIT}"));
        }
        let Columns { steps, requests, parts, times, processes, notes, .. } = &columns;
        if [steps, requests, parts, times, processes, notes].iter().any(|column| column.len() as u64 != rows) {
            return Err("its sections do not fit".into());
        }
        Ok(columns)
    }

    fn read(reader: &mut Reader<'_>) -> Option<Self> {
        let mut columns = Columns { head: reader.words()?.try_into().ok()?, ..Columns::default() };
        let Columns { steps, wide, requests, parts, times, processes, notes, names, .. } = &mut columns;
        for column in [steps, wide, requests, parts, times, processes, notes, names] {
            *column = reader.words()?;
        }
        columns.name_bytes = reader.bytes()?.to_vec();
        columns.note_bytes = reader.bytes()?.to_vec();
        columns.score_bytes = reader.bytes()?.to_vec();
        let mut bytes = &columns.name_bytes[..];
        columns.known_names = columns
            .names
            .iter()
            .map(|&length| Some(text(&mut bytes, length, PROCESS_LIMIT)?.into()))
            .collect::<Option<_>>()?;
        Some(columns)
    }

    /// How many clients the log has, and its capacity.
    pub fn fresh(&self) -> (u64, Capacity) {
        (self.head[1], Capacity::from_words(self.head[2] as usize).expect("it was looked at"))
    }

    /// Gives each row, with the answer that the library gives to its step.
    pub fn replay(&self, each: &mut EachRow<'_>) -> Result<(), Error> {
        let (clients, capacity) = self.fresh();
        let mut replica = Replica::fresh(clients, capacity)?;
        let mut left = Left { wide: &self.wide, scores: &self.score_bytes, notes: &self.note_bytes };
        for row in 0..self.steps.len() {
            let taken = self.row(row, &mut left, replica.known);
            let (mut taken, note) = taken.ok_or_else(|| Error::NoArchive(format!("its row {} is none", row + 1)))?;
            let told = replica.take(&taken.change)?;
            let stamp = replica.stamp(&taken.change, told);
            taken.told = Some(stamp);
            replica.count_as(taken.known, taken.id, &taken.change);
            let time = Some(self.times[row]).filter(|&time| time != NO_TIME).map(|time| time as i64);
            let process = self.processes[row].checked_sub(1).map(|place| &*self.known_names[place as usize]);
            each(StoredRow { row: &taken, stamp, time, process, note })?;
        }
        let chain = u128::from_be_bytes(replica.known.chain);
        let whole = [(chain >> 64) as u64, chain as u64] == self.head[4..];
        if whole && left.is_empty() {
            Ok(())
        } else {
            Err(Error::NoArchive("its rows are not those that it says".into()))
        }
    }

    /// A row without its answer, and its note. None where it is none.
    fn row<'a>(&'a self, row: usize, left: &mut Left<'a>, known: Known) -> Option<(Row, Option<&'a str>)> {
        let (id, index) = (self.requests[row], self.parts[row]);
        let change = left.change(self.steps[row])?;
        let known = known.and(id, index, &change);
        if self.processes[row] > self.known_names.len() as u64 {
            return None;
        }
        let note = match self.notes[row].checked_sub(1) {
            Some(length) => Some(text(&mut left.notes, length, NOTE_LIMIT)?),
            None => None,
        };
        Some((Row { id, index, change, known, told: None }, note))
    }
}

/// What the rows so far have not taken.
struct Left<'a> {
    wide: &'a [u64],
    scores: &'a [u8],
    notes: &'a [u8],
}

impl Left<'_> {
    fn is_empty(&self) -> bool {
        self.wide.is_empty() && self.scores.is_empty() && self.notes.is_empty()
    }

    /// The step in a word, with what it has besides.
    fn change(&mut self, word: u64) -> Option<Change> {
        let (kind, client, number) = match word >> 60 {
            WIDE => {
                let ([client, number], rest) = self.wide.split_first_chunk()?;
                self.wide = rest;
                (word & ((1 << 60) - 1), *client, *number)
            }
            kind => (kind, word >> 52 & CLIENT_NUMBER_LIMIT, word & VALUE_LIMIT),
        };
        Some(match kind {
            WRITE_SCORES => Change::WriteScores(client, self.scores(number)?),
            SET_MARK => Change::SetMark(MarkName::from_word(number)),
            DROP_MARK => Change::DropMark(MarkName::from_word(number)),
            SET_RIGHTS => Change::SetRights(client, number),
            kind => Change::Step(client, Step::new(Kind::from_number(kind)?, number)),
        })
    }

    fn scores(&mut self, count: u64) -> Option<Vec<u16>> {
        let (bytes, rest) = self.scores.split_at_checked(usize::try_from(count).ok()?.checked_mul(2)?)?;
        self.scores = rest;
        Some(bytes.as_chunks().0.iter().map(|&score| u16::from_le_bytes(score)).collect())
    }
}

/// The next text, of so many bytes, which are no more than the limit.
fn text<'a>(bytes: &mut &'a [u8], length: u64, limit: usize) -> Option<&'a str> {
    let length = usize::try_from(length).ok().filter(|&length| length <= limit)?;
    let (text, rest) = bytes.split_at_checked(length)?;
    *bytes = rest;
    str::from_utf8(text).ok()
}
