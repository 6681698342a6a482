//! What a row of a log asks for, in a line.

use crate::marks;
use cindrolf::Right;
use store::Change;

/// A step as a line of a session has it; what no session has, in words.
pub fn asked(change: &Change) -> String {
    match change {
        Change::Step(client, step) => session::line(*client, *step),
        Change::WriteScores(client, scores) => format!("W {client} of {} scores", scores.len()),
        Change::SetMark(name) => format!("mark {}", marks::printed(*name)),
        Change::DropMark(name) => format!("drop mark {}", marks::printed(*name)),
        Change::SetRights(client, word) => format!("rights of {client}: {}", letters(*word)),
    }
}

/// The letters of the steps that a word of rights permits.
pub fn letters(word: u64) -> String {
    Right::ALL.into_iter().filter(|right| word & right.bit() != 0).map(Right::letter).collect()
}
