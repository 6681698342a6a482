//! A log from another place copied to a server, with its ids, times, processes and notes.

use super::engine::{ServerEngine, create_call};
use crate::Error;
use crate::address::ServerAddress;
use crate::file::upgrade::Source;
use crate::request::Known;
use crate::store::PATIENCE;
use cindrolf::Capacity;
use postgres::{bytes, text};
use std::time::Duration;

/// How long a copy may take. A million rows take some seconds.
const LONGEST: Duration = Duration::from_secs(600);

/// Writes rows to a new log on a server, all of them or none. It is for an administrator of the server's logs.
pub(crate) fn import(address: ServerAddress, fresh: (u64, Capacity), source: &mut Source<'_>) -> Result<(), Error> {
    let known = Known::fresh(fresh.0, fresh.1);
    // The columns of the rows, each as a list.
    let mut columns: [Vec<String>; 8] = Default::default();
    let null = || "NULL".to_owned();
    source(&mut |stored| {
        let row = stored.row;
        let values = [
            (row.id as i64).to_string(),
            row.index.to_string(),
            row.change.kind().to_string(),
            row.change.client().map_or_else(null, |client| (client as i64).to_string()),
            bytes(&row.change.input_bytes()),
            stored.time.map_or_else(null, |time| time.to_string()),
            stored.process.map_or_else(null, text),
            stored.note.map_or_else(null, text),
        ];
        columns.iter_mut().zip(values).for_each(|(column, value)| column.push(value));
        Ok(())
    })?;
    let kinds = ["bigint", "bigint", "smallint", "bigint", "bytea", "bigint", "text", "text"];
    let lists = columns.iter().zip(kinds).map(|(column, kind)| format!("ARRAY[{}]::{kind}[]", column.join(",")));
    let lists = lists.collect::<Vec<_>>().join(", ");
    let (name, chain) = (text(&address.log), bytes(&known.chain));
    // One message is one transaction. Where there is a log of this name, the import is not even tried. Where the message
    // comes again, the log is its own, and the rows are there: the import adds none, or finds that the log is in use.
    let create = format!("SELECT 1 / {}::integer", create_call(&address.log, fresh.0, fresh.1));
    let log = format!("(SELECT log FROM cindrolf.logs WHERE name = {name})");
    let import = format!("SELECT cindrolf.import({log}, 0, {chain}, {lists})");
    match ServerEngine::new(address, PATIENCE).make(&format!("{create}; {import}"), LONGEST) {
        // The division by zero.
        Err(Error::Forbidden(why)) if why.contains("SQLSTATE 22012") => Err(Error::Exists),
        Err(Error::Forbidden(why)) if why.contains("SQLSTATE 55000") => Ok(()),
        rows => rows.map(drop),
    }
}
