//! The run total of the reference: a line for each listed ledger, the exact total, and that rounded once.

use crate::grammar::{Session, step};
use crate::log::Log;
use std::fmt::Write;

/// A number of parts of 10^-12, with all its decimals.
pub fn exact(parts: u128) -> String {
    format!("{}.{:012}", parts / 1_000_000_000_000, parts % 1_000_000_000_000)
}

/// The same in thousandths, a half rounded up.
pub fn rounded(parts: u128) -> String {
    let (thousandths, rest) = (parts / 1_000_000_000, parts % 1_000_000_000);
    let thousandths = if rest < 500_000_000 { thousandths } else { thousandths + 1 };
    format!("{}.{:03}", thousandths / 1000, thousandths % 1000)
}

/// All that the program of the run total prints for this input.
pub fn output(input: &[u8]) -> String {
    let session = match Session::read(input) {
        Ok(session) => session,
        Err(text) => return text.into(),
    };
    let mut log = Log::fresh(session.client_count);
    for (client, taken) in session.lines.into_iter().flatten().filter_map(step) {
        log.step(client, taken);
    }
    let (mut text, mut total) = (String::new(), 0);
    for &ledger in &log.source().md_llist {
        let values = log.ledger_values(ledger).expect("a listed ledger");
        let sum = values.iter().map(|&value| u128::from(value)).sum();
        let _ = writeln!(text, "ledger {ledger} entries {} sum {}", values.len(), exact(sum));
        total += sum;
    }
    text + &format!("total {}\nrounded {}\n", exact(total), rounded(total))
}
