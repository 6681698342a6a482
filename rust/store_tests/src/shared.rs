//! A log in a file or on a server, as a process of the tests uses it: the store, and two in files that are wrong.

use cindrolf::{Answer, Capacity, LogRef, PermittedLog, Rights, Step};
use std::fs::File;
use std::path::Path;
use store::database::{Database, Mode, Statement, Value};
use store::{Error, PATIENCE, Store};

/// A log that processes share.
pub trait Shared {
    /// Takes a step, and answers when it is stored.
    fn take(&mut self, client: u64, step: Step) -> Result<Answer, Error>;
    /// The log as it is now.
    fn log(&mut self) -> Result<LogRef<'_>, Error>;
    /// After a step, the last row of which its answer or refusal was decided, with its own; none where there are no rows.
    fn row(&self) -> Option<i64>;
}

impl Shared for Store {
    fn take(&mut self, client: u64, step: Step) -> Result<Answer, Error> {
        Store::take(self, client, step)
    }

    fn log(&mut self) -> Result<LogRef<'_>, Error> {
        Ok(self.latest()?.log())
    }

    fn row(&self) -> Option<i64> {
        self.last_row().map(|row| row.number)
    }
}

/// Opens a store; one that is not there is created. Others may do the same at the same time.
pub fn open_store(path: &Path, clients: u64, capacity: Capacity) -> Result<Store, Error> {
    loop {
        match Store::open(path) {
            Err(Error::Missing | Error::Unfinished) => match Store::create(path, clients, capacity) {
                Err(Error::Exists) => {}
                other => return other,
            },
            other => return other,
        }
    }
}

/// A wrong store: what it remembers of the log would refuse, it refuses without a look at the file.
pub struct RememberingStore {
    store: Store,
    remembered: LogCopy,
    row: Option<i64>,
}

/// The words of a log after a row.
struct LogCopy {
    state: Vec<u64>,
    entries: Vec<u64>,
    row: i64,
}

impl RememberingStore {
    /// The same with a store that was just opened.
    pub fn over(mut store: Store) -> Result<RememberingStore, Error> {
        let remembered = LogCopy::of(&mut store)?;
        Ok(RememberingStore { store, remembered, row: None })
    }
}

impl LogCopy {
    fn of(store: &mut Store) -> Result<LogCopy, Error> {
        let latest = store.latest()?;
        Ok(LogCopy {
            state: latest.log().state().to_vec(),
            entries: latest.log().entries().to_vec(),
            row: latest.rows(),
        })
    }
}

impl Shared for RememberingStore {
    fn take(&mut self, client: u64, step: Step) -> Result<Answer, Error> {
        let LogCopy { state, entries, row } = &mut self.remembered;
        let refused = cindrolf::LogMut::new(state, entries).take(client, step).err();
        self.row = Some(*row);
        let result = match refused {
            Some(refused) => Err(refused.into()),
            None => {
                let result = self.store.take(client, step);
                self.row = self.store.row();
                result
            }
        };
        self.remembered = LogCopy::of(&mut self.store)?;
        result
    }

    fn log(&mut self) -> Result<LogRef<'_>, Error> {
        self.store.log()
    }

    fn row(&self) -> Option<i64> {
        self.row
    }
}

/// A wrong store: each word that a step changes is a commit of its own. A lock beside the file lets one process at a time
/// take a step, so that only one that is killed leaves half of it.
pub struct WordStore {
    all: Statement,
    set: Statement,
    _database: Database,
    lock: File,
    rights: Rights,
    state: Vec<u64>,
    entries: Vec<u64>,
}

impl WordStore {
    /// Opens one; it is created where it is not there.
    pub fn open(path: &Path, clients: u64, capacity: Capacity) -> Result<WordStore, Error> {
        let lock = File::create(path.with_extension("lock")).map_err(|error| Error::File(error.to_string()))?;
        lock.lock().map_err(|error| Error::File(error.to_string()))?;
        let database = Database::open(path, Mode::Create, PATIENCE)?;
        database.text("PRAGMA journal_mode = WAL")?;
        database.execute("PRAGMA synchronous = FULL")?;
        database.execute("CREATE TABLE IF NOT EXISTS words (at INTEGER PRIMARY KEY, word INTEGER)")?;
        let fresh = cindrolf::Log::fresh_with(clients, capacity)?;
        let mut store = WordStore {
            all: database.prepare("SELECT at, word FROM words")?,
            set: database.prepare("INSERT OR REPLACE INTO words VALUES (?, ?)")?,
            _database: database,
            lock,
            rights: Rights::all(clients)?,
            state: fresh.state().to_vec(),
            entries: fresh.entries().to_vec(),
        };
        store.unlock();
        Ok(store)
    }

    fn load(&mut self) -> Result<(), Error> {
        let (state, entries) = (&mut self.state, &mut self.entries);
        self.all.each(&[], |row| {
            if let (Value::Integer(at), Value::Integer(word)) = (row.value(0), row.value(1)) {
                let at = at as usize;
                *(if at < state.len() { &mut state[at] } else { &mut entries[at - state.len()] }) = word as u64;
            }
            Ok::<(), Error>(())
        })
    }

    fn step(&mut self, client: u64, step: Step) -> Result<Answer, Error> {
        self.load()?;
        let before: Vec<u64> = self.state.iter().chain(&self.entries).copied().collect();
        let mut log = cindrolf::LogMut::new(&mut self.state, &mut self.entries);
        let mut log: PermittedLog<'_> = log.under(&self.rights);
        let answer = log.take(client, step)?;
        for (at, (&now, then)) in self.state.iter().chain(&self.entries).zip(before).enumerate() {
            if now != then {
                self.set.execute(&[Value::Integer(at as i64), Value::Integer(now as i64)])?;
            }
        }
        Ok(answer)
    }

    fn unlock(&mut self) {
        let _ = self.lock.unlock();
    }
}

impl Shared for WordStore {
    fn take(&mut self, client: u64, step: Step) -> Result<Answer, Error> {
        self.lock.lock().map_err(|error| Error::File(error.to_string()))?;
        let result = self.step(client, step);
        self.unlock();
        result
    }

    fn log(&mut self) -> Result<LogRef<'_>, Error> {
        self.lock.lock().map_err(|error| Error::File(error.to_string()))?;
        let loaded = self.load();
        self.unlock();
        loaded?;
        Ok(LogRef::new(&self.state, &self.entries))
    }

    fn row(&self) -> Option<i64> {
        None
    }
}
