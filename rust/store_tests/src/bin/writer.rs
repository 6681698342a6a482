//! Writes values as a client with the advised steps, for tests with several processes: FILE CLIENT FIRST COUNT. Prints
//! each value that is stored, with its entry number.

use cindrolf::{Kind, Refusal, Step};
use std::process::ExitCode;
use store::{Error, Store};

fn main() -> ExitCode {
    let words: Vec<String> = std::env::args().skip(1).collect();
    let [file, numbers @ ..] = &words[..] else { return ExitCode::from(2) };
    let numbers: Option<Vec<u64>> = numbers.iter().map(|word| word.parse().ok()).collect();
    let Some(&[client, first, count]) = numbers.as_deref() else { return ExitCode::from(2) };
    match write(file, client, first..first + count) {
        Ok(()) => ExitCode::SUCCESS,
        Err(error) => {
            eprintln!("writer: {error}");
            ExitCode::FAILURE
        }
    }
}

fn write(file: &str, client: u64, values: std::ops::Range<u64>) -> Result<(), Error> {
    let mut store = Store::open(file)?;
    for value in values {
        let at = loop {
            let step = match store.latest()?.log().advise(client)? {
                Some(kind @ (Kind::Become | Kind::Fetch | Kind::Create | Kind::Append)) => Step::new(kind, 0),
                _ => break store.write(client, value)?,
            };
            // Another process of the same client may have been faster.
            match store.take(client, step) {
                Ok(_) | Err(Error::Refused(Refusal::AlreadyLeads | Refusal::OtherStage)) => {}
                Err(error) => return Err(error),
            }
        };
        println!("{value} {}", at.number.0);
    }
    Ok(())
}
