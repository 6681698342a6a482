//! A log for people: which client is named, which lead and at what stage, the ledgers with their counts, the marks.

use crate::failure::Failure;
use crate::json::Json;
use crate::marks;
use crate::table::{Side, Table};
use cindrolf::{LEDGER_LIMIT, Ledger, LedgerNumber, LedgerSum, Right, client_of};
use session::exact;
use std::fmt::Write;
use std::path::Path;
use store::{Error, Latest, Stepper, Store};

/// All that is shown of a log, as it is now.
pub fn text(file: &Path, store: &mut Store) -> Result<String, Failure> {
    let parts = |store: &mut Store| {
        let steppers = store.steppers(cindrolf::CLIENT_LIMIT as usize)?;
        let latest = store.latest()?;
        let clients = clients(latest, &steppers)?;
        Ok(summary(latest)? + "\n" + &clients + &turns(&steppers) + &ledgers(latest)? + &mark_table(latest))
    };
    let parts: Result<String, Error> = parts(store);
    let parts = parts.map_err(|error| Failure::of_reading(file, error))?;
    Ok(format!("file          {}\n{parts}", file.display()))
}

/// The same as JSON.
pub fn json(file: &Path, store: &mut Store) -> Result<String, Failure> {
    let fields = |store: &mut Store| {
        let steppers = store.steppers(cindrolf::CLIENT_LIMIT as usize)?;
        let latest = store.latest()?;
        let (view, sums) = (latest.view()?, latest.sums()?);
        Ok(vec![
            ("file", Json::path(file)),
            ("entries", view.entry_count().into()),
            ("capacity", (view.capacity().words() as u64).into()),
            ("ledgers_created", created(latest)?.into()),
            ("named_leader", view.named_leader().into()),
            ("last_row", latest.last_row().to_string().into()),
            ("clients", clients_json(latest, &steppers)?),
            ("ledgers", ledgers_json(latest, &sums)?),
            ("not_listed", Json::list(not_listed(latest, &sums)?.into_iter().map(Json::from))),
            ("marks", marks::json(latest)),
        ])
    };
    let fields: Result<_, Error> = fields(store);
    Ok(Json::Object(fields.map_err(|error| Failure::of_reading(file, error))?).line())
}

fn clients_json(latest: Latest<'_>, steppers: &[Stepper]) -> Result<Json, Error> {
    let (view, entries) = (latest.view()?, entries_of_clients(latest)?);
    let clients = (0..).zip(view.clients()).zip(entries).zip(steppers);
    Ok(Json::list(clients.map(|(((number, client), entries), stepper)| {
        Json::Object(vec![
            ("client", number.into()),
            ("named", (number == view.named_leader()).into()),
            ("leads", client.leads.into()),
            ("stage", client.stage.name().into()),
            ("ledger", client.ledger.map(|ledger| ledger.number.0).into()),
            ("entries", entries.into()),
            ("lacks", Json::list(lacks(latest, number).into_iter().map(Json::from))),
            ("process", stepper.last.clone().into()),
            ("other_process", stepper.other.clone().into()),
        ])
    })))
}

fn ledgers_json(latest: Latest<'_>, sums: &[(LedgerNumber, LedgerSum)]) -> Result<Json, Error> {
    let view = latest.view()?;
    Ok(Json::list(sums.iter().map(|&(number, ledger)| {
        Json::Object(vec![
            ("ledger", number.0.into()),
            ("state", view.ledger(number).map(state).into()),
            ("entries", ledger.entries.into()),
            ("sum", exact(ledger.sum).into()),
        ])
    })))
}

fn summary(latest: Latest<'_>) -> Result<String, Error> {
    let view = latest.view()?;
    let created = created(latest)?;
    let mut text = String::new();
    let _ = writeln!(text, "clients       {}", view.client_count());
    let _ = writeln!(text, "entries       {} of {}", view.entry_count(), view.capacity().words());
    let _ = writeln!(text, "ledgers       {created} of {LEDGER_LIMIT} created, {} listed", view.list_length());
    let _ = writeln!(text, "named leader  client {}", view.named_leader());
    let _ = writeln!(text, "last row      {}", latest.last_row());
    Ok(text)
}

fn created(latest: Latest<'_>) -> Result<u64, Error> {
    Ok(latest.view()?.next_ledger().map_or(LEDGER_LIMIT, |LedgerNumber(next)| next - 1))
}

/// A warning for each client that two processes step for in turns.
fn turns(steppers: &[Stepper]) -> String {
    let warning = |(client, stepper): (usize, &Stepper)| {
        let (last, other) = (stepper.last.as_ref()?, stepper.other.as_ref()?);
        Some(format!("\nwarning: two processes take turns as client {client}: {last} and {other}\n"))
    };
    steppers.iter().enumerate().filter_map(warning).collect()
}

/// How many entries each client has written.
fn entries_of_clients(latest: Latest<'_>) -> Result<[u64; cindrolf::CLIENT_LIMIT as usize], Error> {
    let mut entries = [0; cindrolf::CLIENT_LIMIT as usize];
    for word in latest.chain()? {
        entries[client_of(word) as usize] += 1;
    }
    Ok(entries)
}

fn clients(latest: Latest<'_>, steppers: &[Stepper]) -> Result<String, Error> {
    let view = latest.view()?;
    let entries = entries_of_clients(latest)?;
    let mut table = Table::new([
        ("client", Side::Right),
        ("named", Side::Left),
        ("leads", Side::Left),
        ("stage", Side::Left),
        ("ledger", Side::Right),
        ("entries", Side::Right),
        ("lacks rights", Side::Left),
        ("last process", Side::Left),
    ]);
    for (((number, client), entries), stepper) in (0..).zip(view.clients()).zip(entries).zip(steppers) {
        table.add([
            number.to_string(),
            yes(number == view.named_leader()),
            yes(client.leads),
            client.stage.name().into(),
            client.ledger.map_or("-".into(), |ledger| ledger.number.0.to_string()),
            entries.to_string(),
            lacking(latest, number),
            stepper.last.clone().unwrap_or("-".into()),
        ]);
    }
    Ok(table.text())
}

fn yes(is: bool) -> String {
    if is { "yes" } else { "-" }.into()
}

/// The letters of the steps that a client has no right to.
fn lacks(latest: Latest<'_>, client: u64) -> Vec<String> {
    let rights = latest.rights();
    let lacking = Right::ALL.into_iter().filter(|&right| !rights.has(client, right));
    lacking.map(|right| right.letter().to_string()).collect()
}

fn lacking(latest: Latest<'_>, client: u64) -> String {
    let letters = lacks(latest, client);
    if letters.is_empty() { "-".into() } else { letters.join(" ") }
}

fn ledgers(latest: Latest<'_>) -> Result<String, Error> {
    let view = latest.view()?;
    let sums = latest.sums()?;
    let mut table =
        Table::new([("ledger", Side::Right), ("state", Side::Left), ("entries", Side::Right), ("sum", Side::Right)]);
    for &(number, ledger) in &sums {
        let state = view.ledger(number).map_or("-", state);
        table.add([number.0.to_string(), state.into(), ledger.entries.to_string(), exact(ledger.sum)]);
    }
    let mut text = if sums.is_empty() { String::new() } else { format!("\n{}", table.text()) };
    let others = not_listed(latest, &sums)?;
    if !others.is_empty() {
        let numbers: Vec<_> = others.iter().map(u64::to_string).collect();
        let _ = write!(text, "\ncreated and not listed: {}\n", numbers.join(", "));
    }
    Ok(text)
}

/// The ledgers that were created and not listed.
fn not_listed(latest: Latest<'_>, sums: &[(LedgerNumber, LedgerSum)]) -> Result<Vec<u64>, Error> {
    let listed = |number: &u64| sums.iter().any(|(listed, _)| listed.0 == *number);
    Ok((1..=created(latest)?).filter(|number| !listed(number)).collect())
}

fn state(ledger: Ledger) -> &'static str {
    match (ledger.open, ledger.recovering) {
        (true, _) => "open",
        (false, true) => "fenced, recovering",
        (false, false) => "closed",
    }
}

fn mark_table(latest: Latest<'_>) -> String {
    let mut table = Table::new([("mark", Side::Left), ("entries", Side::Right)]);
    let mut kept = false;
    for (name, entries) in latest.mark_list() {
        table.add([marks::printed(name), entries.to_string()]);
        kept = true;
    }
    if kept { format!("\n{}", table.text()) } else { String::new() }
}
