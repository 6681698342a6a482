//! A log in a file, which processes of one computer share.

use crate::check::{Checked, WrongAnswer};
use crate::driver::{Driver, Wish};
use crate::engine::Engine;
use crate::file::processes::Stepper;
use crate::file::watched::FileNumber;
use crate::file::{FileEngine, cause, file_name, lost, place, schema, watched, write_ahead};
use crate::journal::EachRow;
use crate::kept::Kept;
use crate::replica::Replica;
use crate::request::{Chain, Told};
use crate::store::PATIENCE;
use crate::{Error, Known, Stored};
use cindrolf::Capacity;
use sqlite::{Database, Mode, Value};
use std::os::unix::fs::MetadataExt;
use std::path::{Path, PathBuf};
use std::time::{Duration, Instant};

/// A log in a file.
pub(crate) struct FileStore {
    path: PathBuf,
    mode: Mode,
    /// Another file of the same name is another log.
    file: FileNumber,
    /// The process that opened it.
    opened_by: u32,
    /// The name under which rows are stored, if another than the process's own was given.
    process: Option<String>,
    patience: Duration,
    pub(crate) link: Option<Driver<FileEngine>>,
    /// The last row that was read or stored: the file has to have it from then on. None before the log was opened.
    seen: Option<Known>,
    /// Whether the link's copy was thrown away.
    stale: bool,
    /// Whether the disk had no room for the last change.
    full: bool,
}

// SAFETY: everything that shares the connection is inside the store, and SQLite lets any thread use a connection, one
// at a time.
unsafe impl Send for FileStore {}

impl FileStore {
    /// Makes a file with a fresh log for 1 to 16 clients, of which client 0 is the named leader. A file that is there
    /// already is left as it is, but for one whose creation was not finished.
    pub fn create(path: &Path, client_count: u64, capacity: Capacity) -> Result<FileStore, Error> {
        file_name::is_of_a_file(path)?;
        Replica::fresh(client_count, capacity)?;
        sqlite::fit().map_err(Error::Unfit)?;
        match FileNumber::of_log(path) {
            Err(Error::Missing) => place::fit_folder(path)?,
            Err(Error::NoLog(_)) => return Err(Error::Exists),
            file => place::fit_file(path, file?)?,
        }
        let database =
            Database::open_log(path, Mode::Create, PATIENCE).map_err(|fault| cause::of(fault.into(), path))?;
        let file = FileNumber::of_open(path, &database)?;
        if let Err(error) = make(&database, client_count, capacity) {
            watched::leave(&database);
            return Err(cause::of(error, path));
        }
        let mut store = FileStore::at(path, file, Mode::Existing);
        store.linked(FileEngine::over(database, file, PATIENCE)?)?;
        store.holds()?;
        Ok(store)
    }

    /// Opens the log in a file, and sees that it holds together. Where another process is about to create it, this waits
    /// for that. A file of an earlier version is opened too, to be read.
    pub fn open(path: &Path) -> Result<FileStore, Error> {
        FileStore::open_as(path, Mode::Existing)
    }

    /// Opens the log in a file to read only: it changes no byte of it, and each step is refused by
    /// [`Error::ReadOnly`]. A log that is in use has two files beside it, which this may have to make, and leaves to the
    /// next process that opens the log to change it.
    pub fn open_read_only(path: &Path) -> Result<FileStore, Error> {
        FileStore::open_as(path, Mode::ReadOnly)
    }

    fn open_as(path: &Path, mode: Mode) -> Result<FileStore, Error> {
        sqlite::fit().map_err(Error::Unfit)?;
        let file = FileNumber::of_log(path)?;
        place::fit_file(path, file)?;
        let mut store = FileStore::at(path, file, mode);
        store.link()?;
        Ok(store)
    }

    /// The store of a file that is still to be opened.
    fn at(path: &Path, file: FileNumber, mode: Mode) -> FileStore {
        let opened_by = std::process::id();
        // It stays the same file where the process goes to another folder.
        let path = std::path::absolute(path).unwrap_or_else(|_| path.into());
        let (process, link, seen) = (None, None, None);
        let (patience, stale, full) = (PATIENCE, false, false);
        FileStore { path, mode, file, opened_by, process, patience, link, seen, stale, full }
    }

    /// Works on the link, and throws its copy away where anything but a refusal comes of it.
    pub(crate) fn guarded<T>(
        &mut self,
        work: impl FnOnce(&mut Driver<FileEngine>) -> Result<T, Error>,
    ) -> Result<T, Error> {
        let link = self.link()?;
        link.engine.added = 0;
        let result = work(link);
        let ended = if result.is_ok() { Ok(()) } else { link.engine.end() };
        let held = match &result {
            Err(error) if !leaves_the_copy(error) => Ok(()),
            _ => ended.and_then(|()| link.engine.holds()),
        };
        match held.and(result) {
            Err(error) if !leaves_the_copy(&error) => Err(self.failed(error)),
            answer => {
                let known = link.known();
                link.engine.copy_if_long(known.rows);
                self.seen = Some(known);
                answer
            }
        }
    }

    /// Leaves the link as the next call can use it.
    fn failed(&mut self, error: Error) -> Error {
        self.stale = true;
        self.full = error.is_full();
        let Some(link) = &mut self.link else { return error };
        let closed = link.engine.end().is_err();
        if closed || error.is_of_other_files() {
            self.link = None;
        } else if error.stored() == Stored::Unknown {
            link.engine.settle();
        }
        cause::of(error, &self.path)
    }

    /// That this process has opened the log, and that the names of its files lead to what it has opened.
    pub(crate) fn holds(&self) -> Result<(), Error> {
        self.leads_to_file()?;
        match self.link.as_ref().and_then(|link| link.engine.beside.as_ref()) {
            Some(beside) => Ok(beside.holds()?),
            None => Ok(()),
        }
    }

    /// SQLite would go on writing to a file that has no name any more.
    fn leads_to_file(&self) -> Result<(), Error> {
        if self.opened_by != std::process::id() {
            return Err(Error::Forked);
        }
        match FileNumber::of_log(&self.path) {
            Ok(file) if file == self.file => Ok(()),
            Err(error @ Error::Unfit(_)) => Err(error),
            _ => Err(Error::Replaced),
        }
    }

    /// Who may read and write the file.
    pub(crate) fn mode_of_file(&self) -> Result<u32, Error> {
        Ok(std::fs::metadata(&self.path).map_err(|_| Error::Replaced)?.mode() & 0o777)
    }

    pub(crate) fn is_read_only(&self) -> bool {
        self.mode == Mode::ReadOnly
    }

    /// The link, with a copy.
    fn link(&mut self) -> Result<&mut Driver<FileEngine>, Error> {
        self.leads_to_file()?;
        if let Some(link) = &mut self.link
            && self.full
        {
            // A write-ahead log that cannot grow is begun again. Where that fails too, the next change tells.
            let _ = link.engine.copy_to_file();
            self.full = false;
        }
        if self.stale
            && let Some(mut link) = self.link.take()
        {
            // Where this fails, the file is opened again next time.
            link.reload()?;
            has(&mut link, self.seen)?;
            self.link = Some(link);
        }
        self.stale = false;
        if self.link.is_none() {
            let opened = FileEngine::open(&self.path, self.file, self.mode, self.patience);
            opened.and_then(|engine| self.linked(engine)).map_err(|error| match error {
                Error::Unfinished if self.seen.is_some() => Error::Damaged("nothing is left in it".into()),
                error if self.seen.is_some() => cause::of(error, &self.path),
                error => cause::of_opening(error, &self.path),
            })?;
        }
        Ok(self.link.as_mut().expect("just set"))
    }

    /// Keeps a copy by an engine. It has to have the row that was seen before.
    fn linked(&mut self, mut engine: FileEngine) -> Result<(), Error> {
        if let Some(name) = &self.process {
            engine.process.clone_from(name);
        }
        let mut link = Driver::over(engine)?;
        has(&mut link, self.seen)?;
        self.seen = Some(link.known());
        self.link = Some(link);
        Ok(())
    }
}

/// That a row which this process has read or stored is still there.
fn has(link: &mut Driver<FileEngine>, seen: Option<Known>) -> Result<(), Error> {
    match seen.filter(|seen| seen.rows > 0) {
        Some(seen) if link.engine.chain_of(seen.rows)? != Some(seen.chain) => Err(lost(seen.rows)),
        _ => Ok(()),
    }
}

impl Kept for FileStore {
    fn path(&self) -> &Path {
        &self.path
    }

    fn set_patience(&mut self, patience: Duration) {
        self.patience = patience;
        if let Some(link) = &mut self.link {
            link.engine.set_patience(patience);
        }
    }

    fn set_process_name(&mut self, name: &str) {
        self.process = Some(name.into());
        if let Some(link) = &mut self.link {
            link.engine.process = name.into();
        }
    }

    fn ask(&mut self, wish: &Wish<'_>) -> Result<(Vec<Told>, Option<Known>), Error> {
        if self.is_read_only() {
            return Err(Error::ReadOnly);
        }
        let deadline = Instant::now() + self.patience;
        let told = self.guarded(|link| link.ask(wish, deadline))?;
        Ok((told, self.link.as_ref().filter(|link| link.engine.added > 0).map(Driver::known)))
    }

    fn latest(&mut self) -> Result<&Replica, Error> {
        self.guarded(Driver::follow)?;
        Ok(&self.link.as_ref().expect("a link that was just used").replica)
    }

    fn known(&self) -> Option<Known> {
        self.link.as_ref().filter(|_| !self.stale).map(Driver::known)
    }

    fn wrong_answers(&self) -> &[WrongAnswer] {
        self.link.as_ref().map_or(&[], |link| &link.wrong)
    }

    fn check(&mut self) -> Result<Checked, Error> {
        self.check_file()
    }

    fn chain_of(&mut self, row: i64) -> Result<Option<Chain>, Error> {
        self.guarded(
            |link| {
                if row == 0 { Ok(Some(link.engine.beginning()?.known.chain)) } else { link.engine.chain_of(row) }
            },
        )
    }

    fn each_row(&mut self, first: i64, each: &mut EachRow<'_>) -> Result<(), Error> {
        self.read_rows(first, each)
    }

    fn steppers(&mut self, clients: usize) -> Result<Vec<Stepper>, Error> {
        self.find_steppers(clients)
    }

    fn has_more(&mut self) -> Result<bool, Error> {
        self.guarded(|link| {
            let last = link.engine.database.number("SELECT max(seq) FROM journal")?;
            Ok(last.is_some_and(|last| last > link.known().rows))
        })
    }

    fn settle(&mut self, request: u64) -> Result<Option<i64>, Error> {
        self.guarded(|link| {
            let mut first = link.engine.database.prepare("SELECT min(seq) FROM journal WHERE request = ?")?;
            let first = first.first(&[Value::Integer(request as i64)], |row| match row.value(0) {
                Value::Integer(seq) => Some(seq - 1),
                _ => None,
            })?;
            Ok(first)
        })
    }

    /// In a file each row has its answer.
    fn audit(&mut self) -> Result<i64, Error> {
        self.latest().map(|replica| replica.known.rows)
    }

    fn checkpoint(&mut self) -> Result<bool, Error> {
        self.copy_now()
    }

    fn close(mut self: Box<Self>) -> Result<(), Error> {
        self.end()
    }

    fn copy_file(&mut self, to: &Path) -> Option<Result<(), Error>> {
        Some(self.vacuum_into(to))
    }

    fn upgrade_to(&mut self, to: &Path) -> Result<(), Error> {
        self.upgrade_file(to)
    }
}

/// Whether the copy is still that of the file.
fn leaves_the_copy(error: &Error) -> bool {
    matches!(error, Error::Refused(_) | Error::Library(_) | Error::JournalFull(_) | Error::OldFormat | Error::UpToDate)
}

/// Makes an empty file a fresh log.
fn make(database: &Database, client_count: u64, capacity: Capacity) -> Result<(), Error> {
    match schema::is_empty(database) {
        Ok(true) => {}
        Ok(false) | Err(Error::NoLog(_) | Error::Damaged(_)) => return Err(Error::Exists),
        Err(error) => return Err(error),
    }
    if !write_ahead(database, PATIENCE)? {
        return Err(Error::NoLog("its disk cannot keep a write-ahead log".into()));
    }
    database.execute("PRAGMA synchronous = FULL")?;
    database.execute("BEGIN IMMEDIATE")?;
    // Another process may have created it meanwhile.
    if !schema::is_empty(database)? {
        return Err(Error::Exists);
    }
    schema::create(database, client_count, capacity)?;
    database.execute("COMMIT").map_err(Error::of_commit)
}
