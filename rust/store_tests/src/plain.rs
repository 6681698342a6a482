//! An SQLite table without a log, to compare with: each row is an INSERT that commits by itself.

use std::path::Path;
use std::time::Duration;
use store::database::{Database, Mode, Statement, Value};
use store::{Error, PATIENCE};

/// A table of SQLite, with the durability and the waiting of the store.
pub struct Plain {
    begin: Statement,
    insert: Statement,
    commit: Statement,
    _database: Database,
}

impl Plain {
    /// Opens the table of a file; one that is not there is created.
    pub fn open(path: &Path) -> Result<Plain, Error> {
        let database = Database::open(path, Mode::Create, PATIENCE)?;
        while database.text("PRAGMA journal_mode = WAL").is_err() {
            std::thread::sleep(Duration::from_millis(1));
        }
        database.execute("PRAGMA synchronous = FULL")?;
        database
            .execute("CREATE TABLE IF NOT EXISTS plain (seq INTEGER PRIMARY KEY, client INTEGER, value INTEGER)")?;
        Ok(Plain {
            begin: database.prepare("BEGIN IMMEDIATE")?,
            insert: database.prepare("INSERT INTO plain (client, value) VALUES (0, ?)")?,
            commit: database.prepare("COMMIT")?,
            _database: database,
        })
    }

    /// Adds a row.
    pub fn write(&mut self, value: u64) -> Result<(), Error> {
        self.begin.execute(&[])?;
        self.insert.execute(&[Value::Integer(value as i64)])?;
        Ok(self.commit.execute(&[])?)
    }
}
