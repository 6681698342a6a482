//! The check of a log's whole file.

use super::store::FileStore;
use super::{FileEngine, schema};
use crate::Error;
use crate::check::Checked;
use crate::driver::Driver;
use crate::engine::Engine;
use crate::replica::Follower;
use sqlite::{Database, Value};

impl FileStore {
    /// What SQLite checks of a file, the tables and views as they were made, and every row taken once more.
    pub fn check_file(&mut self) -> Result<Checked, Error> {
        self.guarded(|link| {
            link.engine.database.execute("BEGIN")?;
            let result = check(link);
            // After an error of the disk SQLite has ended the transaction itself.
            let ended = link.engine.end();
            let checked = result?;
            ended?;
            Ok(checked)
        })
    }
}

fn check(link: &mut Driver<FileEngine>) -> Result<Checked, Error> {
    integrity(&link.engine.database)?;
    let format = schema::identify(&link.engine.database)?;
    schema::verify(&link.engine.database, format)?;
    let mut again = link.engine.beginning()?;
    let wrong = link.engine.feed(Follower::one_by_one(&mut again))?;
    // What this process has followed comes to the same.
    link.follow()?;
    if again != link.replica {
        return Err(Error::Damaged("its words are others than its rows come to".into()));
    }
    Ok(Checked { rows: again.known.rows, wrong })
}

fn integrity(database: &Database) -> Result<(), Error> {
    let mut found = None;
    database.prepare("PRAGMA integrity_check(1)")?.each(&[], |row| {
        if let Value::Text(text) = row.value(0)
            && text != "ok"
        {
            found.get_or_insert_with(|| text.replace('\n', " "));
        }
        Ok::<(), Error>(())
    })?;
    match found {
        Some(text) => Err(Error::Damaged(format!("SQLite finds: {text}"))),
        None => Ok(()),
    }
}
