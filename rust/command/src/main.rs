//! The command cindrolf: sessions, run totals, pages of them, and run logs in files. The folder help/ says what it takes.

mod archives;
mod arguments;
mod asked;
mod audit;
mod check;
mod closed;
mod csv;
mod failure;
mod given;
mod help;
mod journal;
mod json;
mod lines;
mod marks;
mod page;
mod plans;
mod printable;
mod proved;
mod readings;
mod screen;
mod show;
mod signals;
mod steps;
mod steps_of_log;
mod table;
mod time;
mod totals;
mod traces;
mod watch;
mod windows;
mod write;

use arguments::Command;
use failure::Failure;
use signals::Signals;
use std::io::Write;
use std::path::Path;
use std::process::ExitCode;
use store::{Error, Store};

fn main() -> ExitCode {
    match arguments::command(std::env::args_os().skip(1)).and_then(run) {
        Ok(status) => status,
        Err(failure) => failure.report(),
    }
}

fn run(command: Command) -> Result<ExitCode, Failure> {
    // A page in a file needs no other output.
    let has_page = matches!(&command, Command::Trace { drawing, .. } if drawing.page.is_some());
    if closed::output() && !has_page {
        return Err(Failure::Arguments("standard output is closed".into()));
    }
    match command {
        Command::Help(text) => print(text)?,
        Command::Version => print(&format!("cindrolf {}\n", cindrolf::VERSION))?,
        Command::Session { file } => return proved::run("session", file.as_deref().map(given::open).transpose()?),
        Command::Total { files, as_json } => return totals::print(&files, as_json),
        Command::Trace { file, drawing } => traces::draw(&file, &drawing)?,
        Command::Create { file, clients, capacity } => {
            Store::create(&file, clients, capacity).map(drop).map_err(|error| Failure::of_making(&file, error))?;
        }
        Command::Step { file, lines, manner } => steps::take(&file, &lines, &manner)?,
        Command::Write(writing) => write::write(&writing)?,
        Command::Plan(plan) => print(&plans::run(&plan)?)?,
        Command::Forecast(plan) => print(&plans::forecast(&plan)?)?,
        Command::Show { file, as_json: true } => print(&show::json(&file, &mut open(&file)?)?)?,
        Command::Show { file, .. } => print(&show::text(&file, &mut open(&file)?)?)?,
        Command::Watch { file } => watch::watch(&file)?,
        Command::Chain { file, at, as_csv: true } => print(&read(&file, |store| readings::chain_csv(store, at))?)?,
        Command::Chain { file, at, .. } => print(&read(&file, |store| readings::chain(store, at))?)?,
        Command::Steps { file, as_csv: true } => print(&read(&file, journal::csv)?)?,
        Command::Steps { file, .. } => print(&read(&file, journal::text)?)?,
        Command::Window { file, length, limit, as_json } => {
            print(&read(&file, |store| windows::first(store, length, limit, as_json))?)?;
        }
        Command::Advise { file, client, as_json } => {
            print(&read(&file, |store| readings::advice(store, client, as_json))?)?;
        }
        Command::Marks { file, as_json } => print(&read(&file, |store| marks::list(store, as_json))?)?,
        Command::SetMark { file, name } => change(&file, |store| store.set_mark(name))?,
        Command::DropMark { file, name } => change(&file, |store| store.drop_mark(name))?,
        Command::Grant { file, client, right } => change(&file, |store| store.grant(client, right))?,
        Command::Revoke { file, client, right } => change(&file, |store| store.revoke(client, right))?,
        Command::Check { file, at, as_json } => return check::check(&file, at, as_json),
        Command::Copy { file, to } => whole(&file, &to, |store| store.copy_to(&to))?,
        Command::Archive { file, to } => archives::archive(&file, &to)?,
        Command::Restore { archive, to } => archives::restore(&archive, &to)?,
        Command::Schema => print(&store::schema())?,
        Command::Audit { file, once } => audit::audit(&file, once)?,
        Command::Settle { file, request } => {
            let place = open(&file)?.settle(request).map_err(|error| Failure::of_reading(&file, error))?;
            print(&place.map_or("not stored\n".into(), |place| format!("stored, from row {} on\n", place + 1)))?;
        }
        Command::Upgrade { file, to } => whole(&file, &to, |store| store.upgrade_to(&to))?,
    }
    Ok(ExitCode::SUCCESS)
}

/// Opens a log. If another process has stored a wrong answer, a warning says so, and the command goes on.
fn open(file: &Path) -> Result<Store, Failure> {
    let mut store = Store::open(file).map_err(|error| Failure::of_reading(file, error))?;
    if let Some(name) = std::env::var_os("CINDROLF_PROCESS") {
        let named = store.set_process_name(&name.to_string_lossy());
        named.map_err(|error| Failure::Arguments(format!("CINDROLF_PROCESS: {error}")))?;
    }
    for wrong in store.wrong_answers() {
        eprintln!("cindrolf: warning: {}: {wrong}", file.display());
    }
    Ok(store)
}

fn read(file: &Path, text: impl FnOnce(&mut Store) -> Result<String, Error>) -> Result<String, Failure> {
    text(&mut open(file)?).map_err(|error| Failure::of_reading(file, error))
}

fn change(file: &Path, change: impl FnOnce(&mut Store) -> Result<(), Error>) -> Result<(), Failure> {
    change(&mut open(file)?).map_err(|error| Failure::of_change(file, error))
}

/// Makes a new file of a log. A signal waits until that is whole, or given up and removed.
fn whole(file: &Path, to: &Path, make: impl FnOnce(&mut Store) -> Result<(), Error>) -> Result<(), Failure> {
    let signals = Signals::catch().map_err(Failure::Input)?;
    let made = make(&mut open(file)?).map_err(|error| Failure::of_copy(file, to, error));
    made.map(|()| signals.end())
}

/// Prints a text, all of it at once.
fn print(text: &str) -> Result<(), Failure> {
    let mut output = std::io::stdout().lock();
    output.write_all(text.as_bytes()).and_then(|()| output.flush()).map_err(Failure::Output)
}
