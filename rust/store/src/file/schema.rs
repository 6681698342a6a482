//! The tables and views of a log's file, and the numbers that identify the file.

use crate::Error;
use crate::replica::Replica;
use crate::request::{Known, RULES};
use cindrolf::Capacity;
use sqlite::{Database, Value};

/// SQLite's application id of a log's file: `Cind`.
pub const APPLICATION_ID: i64 = 0x4369_6E64;

/// SQLite's user version of a log's file: the version of its tables.
pub const FORMAT: i64 = 100;

/// The user version of files of the earlier format: the interface number of the library that made them.
const OLD_FORMAT: i64 = 3;

/// Which tables a file has.
#[derive(Clone, Copy, Debug, PartialEq, Eq)]
pub enum Format {
    /// Rows are requests.
    Requests,
    /// Rows have the words that their steps changed. Such a file is only read.
    Old,
}

/// Every table, trigger and view: its name, and the statement that makes it. docs/REFERENCE.md explains them.
const OBJECTS: [(&str, &str); 13] = [
    ("log", include_str!("sql/log.sql")),
    ("journal", include_str!("sql/journal.sql")),
    ("journal_is_not_changed", include_str!("sql/journal_is_not_changed.sql")),
    ("journal_is_not_shortened", include_str!("sql/journal_is_not_shortened.sql")),
    ("steps", include_str!("sql/steps.sql")),
    ("moves", include_str!("sql/moves.sql")),
    ("entries", include_str!("sql/entries.sql")),
    ("chain", include_str!("sql/chain.sql")),
    ("ledgers", include_str!("sql/ledgers.sql")),
    ("clients", include_str!("sql/clients.sql")),
    ("marks", include_str!("sql/marks.sql")),
    ("rights", include_str!("sql/rights.sql")),
    ("total", include_str!("sql/total.sql")),
];

/// The tables in which SQLite keeps what `ANALYZE` finds. They come and go, and nothing rests on them.
const STATISTICS: [[&str; 4]; 2] = [
    ["table", "sqlite_stat1", "sqlite_stat1", "CREATE TABLE sqlite_stat1(tbl,idx,stat)"],
    ["table", "sqlite_stat4", "sqlite_stat4", "CREATE TABLE sqlite_stat4(tbl,idx,neq,nlt,ndlt,sample)"],
];

/// Whether the file has nothing in it, as SQLite leaves one whose creation was not finished.
pub fn is_empty(database: &Database) -> Result<bool, Error> {
    let id = database.number("PRAGMA application_id")?;
    let objects = database.number("SELECT count(*) FROM sqlite_schema")?;
    Ok(id == Some(0) && objects == Some(0))
}

/// Makes an empty file a log's, in the transaction that is open.
pub fn create(database: &Database, client_count: u64, capacity: Capacity) -> Result<(), Error> {
    for (_, statement) in OBJECTS {
        database.execute(statement.trim_end())?;
    }
    let [rules, clients, words] =
        [RULES, client_count, capacity.words() as u64].map(|number| Value::Integer(number as i64));
    let Known { chain, .. } = Known::fresh(client_count, capacity);
    let mut log =
        database.prepare("INSERT INTO log (id, rules, client_count, entry_words, chain) VALUES (1, ?, ?, ?, ?)")?;
    log.execute(&[rules, clients, words, Value::Blob(&chain)])?;
    database.execute(&format!("PRAGMA application_id = {APPLICATION_ID}"))?;
    database.execute(&format!("PRAGMA user_version = {FORMAT}"))?;
    Ok(())
}

/// Whether there is something in the file once each step of a creation that is under way, and holds the lock, is done.
pub fn is_filled(database: &Database) -> Result<bool, Error> {
    if !is_empty(database)? {
        return Ok(true);
    }
    match database.execute("BEGIN IMMEDIATE") {
        Ok(()) => {
            let empty = is_empty(database);
            database.execute("ROLLBACK")?;
            Ok(!empty?)
        }
        Err(fault) if fault.is_busy() => Err(fault.into()),
        // A file that this account cannot write may be created by another.
        Err(_) => Ok(false),
    }
}

/// Sees that the file is a log's, and says of which format.
pub fn identify(database: &Database) -> Result<Format, Error> {
    let id = database.number("PRAGMA application_id")?.unwrap_or(0);
    if id != APPLICATION_ID {
        return Err(Error::NoLog(format!("its application id is {id}, and not {APPLICATION_ID}")));
    }
    match database.number("PRAGMA user_version")?.unwrap_or(0) {
        FORMAT => Ok(Format::Requests),
        OLD_FORMAT => Ok(Format::Old),
        version => Err(Error::NoLog(format!("its user version is {version}, and not {FORMAT}"))),
    }
}

/// The fresh log that the file began with.
pub fn fresh(database: &Database, format: Format) -> Result<Replica, Error> {
    let others = if format == Format::Old { "NULL, NULL" } else { "rules, chain" };
    let mut log = database.prepare(&format!("SELECT client_count, entry_words, {others} FROM log"))?;
    let mut found = None;
    log.each(&[], |row| {
        let (Value::Integer(clients), Value::Integer(words)) = (row.value(0), row.value(1)) else { return Ok(()) };
        if let Value::Integer(rules) = row.value(2)
            && rules as u64 != RULES
        {
            let why = format!("it goes by version {rules} of the rules, and this library by {RULES}");
            return Err(Error::NoLog(why));
        }
        let chain = match row.value(3) {
            Value::Blob(chain) => Some(chain.to_vec()),
            _ => None,
        };
        found = Some((clients, words, chain));
        Ok(())
    })?;
    let (clients, words, chain) = found.ok_or_else(|| Error::Damaged("its table log has no row".into()))?;
    let capacity = usize::try_from(words).ok().and_then(Capacity::from_words);
    let fresh = capacity.and_then(|capacity| Replica::fresh(clients as u64, capacity).ok());
    let fresh = fresh.ok_or_else(|| Error::Damaged(format!("no log has {clients} clients and {words} entry words")))?;
    if format == Format::Requests && chain.as_deref() != Some(&fresh.known.chain) {
        return Err(Error::Damaged("its table log was changed".into()));
    }
    Ok(fresh)
}

/// Sees that every table, trigger and view is as it was made, and that there is no other. Of a file of the earlier format
/// nothing but its rows is looked at.
pub fn verify(database: &Database, format: Format) -> Result<(), Error> {
    if format == Format::Old {
        return Ok(());
    }
    let mut left: Vec<_> = OBJECTS.to_vec();
    let mut objects = database.prepare("SELECT type, name, tbl_name, sql FROM sqlite_schema")?;
    objects.each(&[], |row| {
        let found = [0, 1, 2, 3].map(|column| match row.value(column) {
            Value::Text(text) => text,
            _ => "",
        });
        if STATISTICS.contains(&found) {
            return Ok(());
        }
        let known = left.iter().position(|object| made(object) == found);
        let known = known.ok_or_else(|| Error::Damaged(format!("{} is not as it was made", found[1])))?;
        left.swap_remove(known);
        Ok::<(), Error>(())
    })?;
    match left.first() {
        Some((name, _)) => Err(Error::Damaged(format!("it has no {name}"))),
        None => Ok(()),
    }
}

/// What SQLite says of an object: its type, its name, its table and its statement.
fn made<'a>(&(name, statement): &(&'a str, &'a str)) -> [&'a str; 4] {
    let statement = statement.trim_end();
    match statement.split(' ').nth(1) {
        Some("TABLE") => ["table", name, name, statement],
        Some("VIEW") => ["view", name, name, statement],
        _ => ["trigger", name, "journal", statement],
    }
}

#[cfg(test)]
mod tests {
    use super::*;
    use cindrolf::{Kind, Stage};

    /// The rows of the values in a view's statement, each as it stands there.
    fn values(view: &str) -> Vec<&'static str> {
        let (_, statement) = OBJECTS.into_iter().find(|(name, _)| *name == view).expect("a view");
        let (_, rows) = statement.split_once("VALUES\n").expect("values, each row in a line of its own");
        let rows = rows.lines().map_while(|line| line.trim_start().strip_prefix('('));
        rows.map(|row| row.trim_end_matches(',').strip_suffix(')').expect("the end of a row")).collect()
    }

    // The statements are part of the file's format, so they are not made of the kinds: they have to say the same.
    #[test]
    fn views_say_what_kinds_and_stages_are_called() {
        let mut steps = Kind::ALL.map(|kind| format!("{}, '{}', '{kind}'", kind.number(), kind.letter())).to_vec();
        steps.push("10, NULL, 'write scores'".into());
        assert_eq!(values("steps"), steps);
        assert_eq!(values("rights"), Kind::ALL.map(|kind| format!("{}, '{kind}'", kind.number())));
        let (_, clients) = OBJECTS.into_iter().find(|(name, _)| *name == "clients").expect("a view");
        let quoted: std::collections::BTreeSet<&str> = clients.split('\'').skip(1).step_by(2).collect();
        assert_eq!(quoted, Stage::ALL.map(Stage::name).into());
    }
}
