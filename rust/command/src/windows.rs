//! The first stretch of a run whose expected errors add up to more than a limit.

use crate::json::Json;
use cindrolf::{LedgerNumber, ReadingPlace, client_of, value_of};
use session::exact;
use store::{Error, Latest, Store};

/// A window of the chain reading.
struct Window {
    /// Its place in the reading.
    start: u64,
    sum: u64,
    /// Its first read: the client, the ledger and the place there.
    client: u64,
    ledger: u64,
    place: u64,
}

/// The first window of so many reads over the limit, as a line or as JSON.
pub fn first(store: &mut Store, length: u64, limit: u64, as_json: bool) -> Result<String, Error> {
    let latest = store.latest()?;
    let window = match latest.log().first_window(length, limit)? {
        Some(ReadingPlace(start)) => Some(window(latest, start, length)?),
        None => None,
    };
    Ok(if as_json { json(window).line() } else { line(window) })
}

fn window(latest: Latest<'_>, start: u64, length: u64) -> Result<Window, Error> {
    let words = latest.chain()?;
    let reads = &words[start as usize..(start + length) as usize];
    // 256 values of 52 bits have at most 60.
    let sum = reads.iter().map(|&word| value_of(word)).sum();
    let (LedgerNumber(ledger), place) = ledger_of(latest, start)?;
    Ok(Window { start, sum, client: client_of(reads[0]), ledger, place })
}

/// The ledger of a word of the reading, and its place there: the reading has the ledgers in the order of the list.
fn ledger_of(latest: Latest<'_>, start: u64) -> Result<(LedgerNumber, u64), Error> {
    let mut before = 0;
    for (number, ledger) in latest.sums()? {
        if start < before + ledger.entries {
            return Ok((number, start - before));
        }
        before += ledger.entries;
    }
    Err(Error::Damaged(format!("the reading has no place {start}")))
}

fn line(window: Option<Window>) -> String {
    let Some(Window { start, sum, client, ledger, place }) = window else { return "none\n".into() };
    format!("start {start} sum {} client {client} ledger {ledger} place {place}\n", exact(sum))
}

fn json(window: Option<Window>) -> Json {
    let Some(Window { start, sum, client, ledger, place }) = window else {
        return Json::Object(vec![("found", false.into())]);
    };
    Json::Object(vec![
        ("found", true.into()),
        ("start", start.into()),
        ("sum", exact(sum).into()),
        ("client", client.into()),
        ("ledger", ledger.into()),
        ("place", place.into()),
    ])
}
