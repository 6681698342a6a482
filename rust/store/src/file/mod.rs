//! The engine that keeps rows in an SQLite file, which processes of one computer share.
//!
//! A request is one transaction that begins with the write lock. A copy that had every row some milliseconds ago is few
//! rows short; an older one follows the rows before that, and again every few milliseconds while it waits for the lock.
//! So under the lock there are few rows to follow. If SQLite says that nothing was committed since the copy had every
//! row, there is nothing to read. The answers of the request are known when its rows are inserted, so that they are
//! stored with them.

pub mod backup;
pub mod cause;
mod check;
mod checkpoint;
pub mod file_name;
pub mod holder;
pub mod old;
pub mod place;
pub mod processes;
mod reading;
pub mod rows;
pub mod schema;
pub mod store;
mod system;
pub mod upgrade;
pub mod watched;

use crate::check::WrongAnswer;
use crate::engine::{Appended, Engine, Followed, Request};
use crate::journal::StoredRow;
use crate::replica::{Follower, Replica, Row, Wrong};
use crate::request::{Asked, Chain};
use crate::{Error, Known};
use rows::Origin;
use schema::Format;
use sqlite::{Database, Mode, Statement, Value};
use std::num::NonZeroU32;
use std::path::Path;
use std::thread::sleep;
use std::time::{Duration, Instant, SystemTime, UNIX_EPOCH};
use watched::{Beside, FileNumber};

/// How often an empty file is looked at again, after a millisecond: the process that creates it may be between two of its
/// steps. A look that finds nobody else counts fourfold.
const LOOKS: u32 = 100;

/// Who may use a file that was made of a log without a mode, as one on a server: its owner.
pub(crate) const PRIVATE: u32 = 0o600;

/// How long a copy that had every row counts as one that is few rows short. With sixteen processes that wait in turn, on a
/// busy machine, looks every 1.5 ms were slower in two of three runs; every 20 ms showed no gain in seven.
const RECENT: Duration = Duration::from_millis(5);

/// What SQLite does not keep in the file.
const PRAGMAS: [&str; 3] = ["synchronous = FULL", "trusted_schema = OFF", "cell_size_check = ON"];

/// A connection and its statements.
pub(crate) struct FileEngine {
    since: Statement,
    begin: Statement,
    insert: Option<Statement>,
    commit: Statement,
    rollback: Statement,
    pub database: Database,
    /// The connection that copies the write-ahead log to the file, while this one holds the lock.
    copier: Option<Database>,
    /// The write-ahead log, without which nothing is written. A copy of a log has none until then.
    pub beside: Option<Beside>,
    /// How many rows the present call has stored.
    pub added: u64,
    /// Whether a row was stored that may not be copied to the file yet.
    to_copy: bool,
    /// How often the statements had been prepared once more when the schema was last looked at.
    verified: i32,
    /// When a copy last had every row.
    whole: Option<Whole>,
    format: Format,
    file: FileNumber,
    patience: Duration,
    pub process: String,
}

/// The moment when a copy had every row: which rows these were, and SQLite's version of the file.
struct Whole {
    known: Known,
    version: i32,
    when: Instant,
}

impl FileEngine {
    pub fn open(path: &Path, file: FileNumber, mode: Mode, patience: Duration) -> Result<Self, Error> {
        let mut looks = 0;
        while looks < LOOKS {
            let database = Database::open_log(path, mode, patience)?;
            if FileNumber::of_open(path, &database)? != file {
                return Err(Error::Replaced);
            }
            let filled = schema::is_filled(&database).inspect_err(|_| watched::leave(&database))?;
            if filled {
                let engine = FileEngine::over(database.clone(), file, patience);
                return engine.inspect_err(|_| watched::leave(&database));
            }
            looks += if watched::close_empty(database) { 4 } else { 1 };
            sleep(Duration::from_millis(1));
        }
        Err(Error::Unfinished)
    }

    pub fn over(database: Database, file: FileNumber, patience: Duration) -> Result<Self, Error> {
        for pragma in PRAGMAS {
            database.execute(&format!("PRAGMA {pragma}"))?;
        }
        let format = schema::identify(&database)?;
        schema::verify(&database, format)?;
        let ahead = database.text("PRAGMA journal_mode")?.as_deref() == Some("wal");
        let columns = if format == Format::Old { old::FOLLOWED } else { rows::FOLLOWED };
        let insert = format!("INSERT INTO journal ({}) VALUES (?, ?, ?, ?, ?, ?, ?, ?, ?, ?, ?, ?)", rows::STORED);
        Ok(FileEngine {
            since: database.prepare(&format!("SELECT {columns} FROM journal WHERE seq >= ? ORDER BY seq"))?,
            begin: database.prepare("BEGIN IMMEDIATE")?,
            insert: if format == Format::Old { None } else { Some(database.prepare(&insert)?) },
            commit: database.prepare("COMMIT")?,
            rollback: database.prepare("ROLLBACK")?,
            beside: if ahead { Some(Beside::of_open(&database)?) } else { None },
            verified: 0,
            whole: None,
            copier: None,
            added: 0,
            to_copy: false,
            format,
            file,
            database,
            patience,
            process: system::process_name(),
        })
    }

    pub fn set_patience(&mut self, patience: Duration) {
        self.patience = patience;
        self.database.set_patience(patience);
    }

    /// A copy of a log has no write-ahead log until it is changed.
    fn write_ahead(&mut self) -> Result<(), Error> {
        if self.beside.is_none() {
            if !write_ahead(&self.database, self.patience)? {
                return Err(Error::NoLog("it cannot be changed without a write-ahead log".into()));
            }
            schema::identify(&self.database)?;
            self.beside = Some(Beside::of_open(&self.database)?);
        }
        Ok(())
    }

    /// Ends the transaction, if one is open.
    pub fn end(&mut self) -> Result<(), Error> {
        if self.database.in_transaction() { Ok(self.rollback.execute(&[])?) } else { Ok(()) }
    }

    /// That the write-ahead log which the present call has read or written is the one beside the file.
    pub fn holds(&self) -> Result<(), Error> {
        match self.beside.as_ref().map_or(Ok(()), Beside::holds) {
            Ok(()) => Ok(()),
            Err(fault) if self.added > 0 => Err(Error::of_commit(fault)),
            Err(fault) => Err(fault.into()),
        }
    }

    /// After a commit that failed, stores one that changes nothing. What the first may have left in the write-ahead log
    /// comes back once all processes are killed; this takes its place. Where it fails too, the next step does.
    pub fn settle(&mut self) {
        let nothing = format!("PRAGMA user_version = {}", schema::FORMAT);
        self.database.set_patience(FileEngine::SHORT);
        let begun = self.begin.execute(&[]);
        let _ = begun.and_then(|()| self.database.execute(&nothing)).and_then(|()| self.commit.execute(&[]));
        let _ = self.end();
        self.database.set_patience(self.patience);
    }

    /// The chain value of a row, if there is one.
    pub fn chain_of(&mut self, row: i64) -> Result<Option<Chain>, Error> {
        if self.format == Format::Old {
            // It has none, and is made of the rows up to it.
            let (known, mut found) = (self.beginning()?.known, None);
            self.read(known, |read| {
                found = found.or((read.known.rows == row).then_some(read.known.chain));
                Ok(())
            })?;
            return Ok(found);
        }
        let mut chain = self.database.prepare("SELECT chain FROM journal WHERE seq = ?")?;
        let chain = chain.first(&[Value::Integer(row)], |row| match row.value(0) {
            Value::Blob(bytes) => bytes.try_into().ok(),
            _ => None,
        })?;
        Ok(chain)
    }

    /// Has a copy follow the rows that it does not have.
    pub fn feed(&mut self, mut follower: Follower<'_>) -> Result<Vec<WrongAnswer>, Error> {
        self.read(follower.known(), |row| follower.row(row))?;
        let wrong = follower.finish()?;
        wrong.into_iter().map(|wrong| self.named(wrong)).collect()
    }

    /// Gives each row after those that are known. The last of these has to be there.
    fn read(&mut self, known: Known, mut each: impl FnMut(Row) -> Result<(), Error>) -> Result<(), Error> {
        let awaited = Some(known).filter(|known| known.rows > 0);
        let mut reader = Reader { format: self.format, at: known, awaited, before: None };
        self.since.each(&[Value::Integer(known.rows)], |columns| {
            let row = reader.row(columns)?;
            row.map_or(Ok(()), &mut each)
        })?;
        reader.awaited.map_or(Ok(()), |known| Err(lost(known.rows)))
    }

    /// A wrong answer, with the process that stored it.
    fn named(&self, Wrong { row, stored, replayed }: Wrong) -> Result<WrongAnswer, Error> {
        let column = if self.format == Format::Old { "NULL" } else { "process" };
        let mut process = self.database.prepare(&format!("SELECT {column} FROM journal WHERE seq = ?"))?;
        let process = process.first(&[Value::Integer(row)], |row| match row.value(0) {
            Value::Text(name) => Some(name.to_owned()),
            _ => None,
        })?;
        Ok(WrongAnswer { row, process, stored, replayed })
    }

    /// Inserts a row of another log as it is there, in the transaction that is open.
    fn insert_row(&mut self, known: Known, stored: &StoredRow<'_>) -> Result<Known, Error> {
        let Some(insert) = &mut self.insert else { return Err(Error::OldFormat) };
        let StoredRow { row, stamp, time, process, note } = *stored;
        let known = known.and(row.id, row.index, &row.change);
        let asked = Asked { change: row.change.clone(), note: note.map(str::to_owned) };
        rows::stored(known, (row.id, row.index), &asked, stamp, &Origin { time, process }, |row| insert.execute(row))?;
        Ok(known)
    }

    /// The moment after a transaction that has read or stored the last of these rows.
    fn whole_now(&self, known: Known) -> Result<Whole, Error> {
        Ok(Whole { known, version: self.database.version()?, when: Instant::now() })
    }

    /// Takes the write lock. While another process has it, the copy follows the rows that this one stores.
    fn lock(&mut self, replica: &mut Replica) -> Result<Vec<WrongAnswer>, Error> {
        let (since, mut wrong) = (Instant::now(), Vec::new());
        loop {
            self.database.set_patience(RECENT.min(self.patience));
            let begun = self.begin.execute(&[]).map_err(Error::from);
            self.database.set_patience(self.patience);
            match begun {
                Err(error) if error.is_busy() && since.elapsed() < sqlite::patience_now(self.patience) => {
                    wrong.extend(self.follow(replica, None)?.wrong);
                }
                begun => return begun.map(|()| wrong),
            }
        }
    }

    /// Inserts the rows of a request, in the transaction that is open.
    fn insert(&mut self, request: &Request<'_>) -> Result<(), Error> {
        let Some(insert) = &mut self.insert else { return Err(Error::OldFormat) };
        let origin = Origin { time: Some(now()), process: Some(&self.process) };
        let rows = request.asked.iter().zip(request.stamps).zip(request.after);
        for (index, ((asked, &stamp), &known)) in (0..).zip(rows) {
            rows::stored(known, (request.id, index), asked, stamp, &origin, |values| insert.execute(values))?;
            if self.database.inserted() != 1 {
                return Err(Error::Damaged(format!("row {} of its journal could not be inserted", known.rows)));
            }
        }
        Ok(())
    }
}

/// Reads rows from the last one that is known on.
struct Reader {
    format: Format,
    /// The rows up to the last that was read.
    at: Known,
    /// The last known row, until it was read.
    awaited: Option<Known>,
    /// The checksum of the row before, in a file of the earlier format.
    before: Option<u64>,
}

impl Reader {
    /// The row in these columns, unless it is the last one that is known.
    fn row(&mut self, columns: sqlite::Row<'_>) -> Result<Option<Row>, Error> {
        let row = match self.format {
            Format::Requests => rows::load(columns).ok_or_else(|| no_row(self.at.rows + 1))?,
            Format::Old => {
                let (row, sum) = old::load(columns, self.at, self.before)?;
                self.before = Some(sum);
                row
            }
        };
        self.at = row.known;
        let is_known = self.awaited.take_if(|known| *known == row.known).is_some();
        Ok(if is_known { None } else { Some(row) })
    }
}

impl Engine for FileEngine {
    fn beginning(&mut self) -> Result<Replica, Error> {
        schema::fresh(&self.database, self.format)
    }

    /// A request is appended under the lock, so that it is never come upon.
    fn follow(&mut self, replica: &mut Replica, _: Option<u64>) -> Result<Followed, Error> {
        let wrong = self.feed(Follower::new(replica))?;
        // A wrong answer's process is looked for by a statement of its own, which may see rows that the copy does not have.
        self.whole = if wrong.is_empty() { Some(self.whole_now(replica.known)?) } else { None };
        // Somebody has changed the schema since it was looked at.
        let prepared = self.since.prepared_again();
        if self.verified != prepared {
            schema::verify(&self.database, self.format)?;
            self.verified = prepared;
        }
        Ok(Followed { wrong, stopped: false })
    }

    fn catch_up(&mut self, replica: &mut Replica) -> Result<Vec<WrongAnswer>, Error> {
        match &self.whole {
            Some(whole) if whole.when.elapsed() < RECENT => Ok(Vec::new()),
            _ => self.follow(replica, None).map(|followed| followed.wrong),
        }
    }

    fn hold(&mut self, replica: &mut Replica) -> Result<Followed, Error> {
        if self.format == Format::Old {
            return Err(Error::OldFormat);
        }
        self.write_ahead()?;
        let mut wrong = self.lock(replica)?;
        let version = self.database.version()?;
        if self.whole.as_ref().is_none_or(|whole| (whole.known, whole.version) != (replica.known, version)) {
            wrong.extend(self.follow(replica, None)?.wrong);
        }
        Ok(Followed { wrong, stopped: false })
    }

    fn release(&mut self) -> Result<(), Error> {
        self.end()
    }

    /// Under the lock every row is known, and a number that no row has was never used: what is not stored now never
    /// comes back once another row is.
    fn start(&mut self, replica: &Replica) -> Result<Option<NonZeroU32>, Error> {
        Ok(replica.last_start.checked_add(1).and_then(NonZeroU32::new))
    }

    fn append(&mut self, known: Known, request: &Request<'_>) -> Result<Appended, Error> {
        self.insert(request)?;
        self.commit.execute(&[]).map_err(Error::of_commit)?;
        (self.added, self.to_copy) = (request.asked.len() as u64, true);
        // What is stored is answered: where there is no version to be had, the rows are read again next time.
        self.whole = request.after.last().and_then(|&known| self.whole_now(known).ok());
        Ok(Appended::Placed(known.rows))
    }
}

/// Has the file keep a write-ahead log, if that can be had. SQLite does not wait for the lock that it takes here.
pub(crate) fn write_ahead(database: &Database, patience: Duration) -> Result<bool, Error> {
    let since = Instant::now();
    loop {
        match database.text("PRAGMA journal_mode = WAL").map_err(Error::from) {
            Err(error) if error.is_busy() && since.elapsed() < patience => sleep(Duration::from_millis(1)),
            mode => return Ok(mode?.as_deref() == Some("wal")),
        }
    }
}

fn now() -> i64 {
    SystemTime::now().duration_since(UNIX_EPOCH).map_or(0, |since| since.as_micros() as i64)
}

pub(crate) use system::process_name;

pub(crate) fn no_row(row: i64) -> Error {
    Error::Damaged(format!("row {row} of its journal is none"))
}

pub(crate) fn lost(row: i64) -> Error {
    Error::Damaged(format!("row {row} of its journal, which this process has read or stored, is missing or another"))
}
