//! The session program of the reference: lines in, answers out.

use crate::grammar::{Session, step};
use crate::log::Log;
use model::Answer;
use std::fmt::Write;

/// An answer as the session program prints it.
pub fn answer(answer: Answer) -> String {
    match answer {
        Answer::Done => "ok".into(),
        Answer::WasClosed => "was".into(),
        Answer::Behind => "behind".into(),
        Answer::Entry { number, place } => format!("entry {number} place {place}"),
        Answer::Refused(number) => format!("ref {number}"),
    }
}

/// All that the session program prints for this input.
pub fn transcript(input: &[u8]) -> String {
    let session = match Session::read(input) {
        Ok(session) => session,
        Err(text) => return text.into(),
    };
    let (mut log, mut text) = (Log::fresh(session.client_count), String::new());
    for (place, line) in (1..).zip(session.lines) {
        let taken = line.and_then(step).map(|(client, step)| answer(log.step(client, step)));
        let _ = writeln!(text, "{place} {}", taken.as_deref().unwrap_or("bad line"));
    }
    text.push_str("chain");
    for (client, value) in log.chain() {
        let _ = write!(text, " {client}:{value}");
    }
    text + "\n"
}
