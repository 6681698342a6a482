//! Single readings of a log: the chain and the advice.

use crate::csv::{line, or_empty};
use crate::json::Json;
use crate::time::utc;
use cindrolf::{LedgerNumber, MarkName, client_of, value_of};
use std::collections::BTreeMap;
use std::fmt::Write;
use store::{Error, Latest, Store};

/// The chain line of the session program, as it is now or was at a mark.
pub fn chain(store: &mut Store, at: Option<MarkName>) -> Result<String, Error> {
    let mut text = String::from("chain");
    for word in words(store.latest()?, at)? {
        let _ = write!(text, " {}:{}", client_of(word), value_of(word));
    }
    Ok(text + "\n")
}

/// The chain reading, as it is now or was at a mark.
fn words(latest: Latest<'_>, at: Option<MarkName>) -> Result<Vec<u64>, Error> {
    match at {
        Some(name) => latest.read_mark(name),
        None => latest.chain(),
    }
}

/// The chain as fields with commas between them, one read a line: what the library reads, and beside it the time and the
/// note of the row that has stored it.
pub fn chain_csv(store: &mut Store, at: Option<MarkName>) -> Result<String, Error> {
    let rows = rows_of_entries(store)?;
    let latest = store.latest()?;
    let mut ledgers = Vec::new();
    for (LedgerNumber(number), ledger) in latest.sums()? {
        ledgers.extend((0..ledger.entries).map(|place| (number, place)));
    }
    let mut text = line(&["position", "ledger", "place", "client", "value", "time", "note"]);
    for (position, (word, (ledger, place))) in words(latest, at)?.into_iter().zip(ledgers).enumerate() {
        let numbers =
            [position as u64, ledger, place, client_of(word), value_of(word)].map(|number| number.to_string());
        let row = rows.get(&position.to_string()).cloned().unwrap_or_default();
        text += &line(&[&numbers[..], &row[..]].concat());
    }
    Ok(text)
}

/// The time and the note of each entry's row, by the entry's number as its reply has it.
fn rows_of_entries(store: &mut Store) -> Result<BTreeMap<String, [String; 2]>, Error> {
    let mut rows = BTreeMap::new();
    store.each_row(|row| {
        if let Some(reply) = row.reply.strip_prefix("entry ") {
            let entry = reply.split(' ').next().unwrap_or_default();
            let note = row.note.unwrap_or_default();
            rows.insert(entry.to_owned(), [or_empty(row.time.map(utc)), note.to_owned()]);
        }
        Ok(())
    })?;
    Ok(rows)
}

/// The step that a client should take next; where there is none, who is named.
pub fn advice(store: &mut Store, client: u64, as_json: bool) -> Result<String, Error> {
    let latest = store.latest()?;
    let (advised, named) = (latest.log().advise(client)?, latest.view()?.named_leader());
    if as_json {
        let step = advised.map(|kind| [kind.letter().to_string(), kind.to_string()]);
        let [letter, step] = step.map_or([Json::Null, Json::Null], |words| words.map(Json::from));
        let fields =
            vec![("client", client.into()), ("letter", letter), ("step", step), ("named_leader", named.into())];
        return Ok(Json::Object(fields).line());
    }
    Ok(match advised {
        Some(kind) => format!("{} {kind}\n", kind.letter()),
        None => format!("none: client {named} is named\n"),
    })
}
