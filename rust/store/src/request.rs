//! What a row of a log asks for, its bytes, and the chain value over all rows.
//!
//! A log is only a list of requests: the proved library computes its words from them, starting from a fresh log. A
//! request has one row for each of its steps. Marks and rights are steps too, so that they are ordered with the others,
//! replayed with them, and reach another process in the same way.
//!
//! Each row has a chain value, computed from its own bytes and the chain value of the row before. So a row that was
//! changed, left out or put elsewhere is found, and two logs with the same last chain value have the same rows.
//! docs/SHARING.md has the bytes; crates/shared proves that no two rows have the same.

use cindrolf::{Answer, Capacity, Kind, MarkName, Refusal, Step, StepWord};

/// A single step of a request.
#[derive(Clone, Debug, PartialEq, Eq)]
pub enum Change {
    /// A client's step.
    Step(u64, Step),
    /// A client's write of the sum of the parts of these scores.
    WriteScores(u64, Vec<u16>),
    /// A mark of this name is set.
    SetMark(MarkName),
    /// The mark of this name is dropped.
    DropMark(MarkName),
    /// A client has this word of rights from now on.
    SetRights(u64, u64),
}

/// A step of a request, and its note for people.
#[derive(Clone, Debug, PartialEq, Eq)]
pub struct Asked {
    /// The step.
    pub change: Change,
    /// A note of up to [`NOTE_LIMIT`](crate::NOTE_LIMIT) bytes, such as the name of a read. No decision uses it.
    pub note: Option<String>,
}

/// How a step is answered in its place.
pub type Told = Result<Answer, Refusal>;

/// The chain value of all rows up to one: the first 16 bytes of a SHA-256.
pub(crate) type Chain = [u8; 16];

/// The rows that a copy is made of.
#[derive(Clone, Copy, Debug, PartialEq, Eq)]
pub(crate) struct Known {
    /// How many.
    pub rows: i64,
    /// The chain value of the last.
    pub chain: Chain,
}

/// The version of the rules by which rows are replayed: it changes with any answer or word that the library gives. A log of
/// another version is refused, so that the replay of a log gives the same for ever.
pub(crate) const RULES: u64 = 1;

/// The numbers of the kinds that are no step of a plan.
pub(crate) const WRITE_SCORES: u64 = 10;
pub(crate) const SET_MARK: u64 = 11;
pub(crate) const DROP_MARK: u64 = 12;
pub(crate) const SET_RIGHTS: u64 = 13;

impl From<Change> for Asked {
    fn from(change: Change) -> Self {
        Asked { change, note: None }
    }
}

impl Change {
    /// The number of its kind in a row.
    pub fn kind(&self) -> u64 {
        match self {
            Change::Step(_, step) => step.kind().number(),
            Change::WriteScores(..) => WRITE_SCORES,
            Change::SetMark(_) => SET_MARK,
            Change::DropMark(_) => DROP_MARK,
            Change::SetRights(..) => SET_RIGHTS,
        }
    }

    /// The client that takes it, or whose rights it changes. A mark has none.
    pub(crate) fn client(&self) -> Option<u64> {
        match self {
            Change::Step(client, _) | Change::WriteScores(client, _) | Change::SetRights(client, _) => Some(*client),
            Change::SetMark(_) | Change::DropMark(_) => None,
        }
    }

    /// It as a word of a plan, if there is one.
    pub(crate) fn word(&self) -> Option<StepWord> {
        match self {
            Change::Step(client, step) => StepWord::new(*client, *step).ok(),
            _ => None,
        }
    }

    /// Its input as bytes: a number as eight with the most significant first, scores as two each with the low one
    /// first, a mark's name as it is.
    fn input(&self, bytes: &mut Vec<u8>) {
        match self {
            Change::Step(_, step) if step.kind() == Kind::Write => bytes.extend(step.value().to_be_bytes()),
            Change::Step(..) => {}
            Change::WriteScores(_, scores) => bytes.extend(scores.iter().flat_map(|score| score.to_le_bytes())),
            Change::SetMark(name) | Change::DropMark(name) => bytes.extend(name.0),
            Change::SetRights(_, word) => bytes.extend(word.to_be_bytes()),
        }
    }
}

impl Change {
    /// Its input as the bytes of a row.
    pub(crate) fn input_bytes(&self) -> Vec<u8> {
        let mut bytes = Vec::new();
        self.input(&mut bytes);
        bytes
    }
}

impl Known {
    /// Row 0, the fresh log: its chain value is over the version of the rules, the client count and the entry words.
    pub fn fresh(client_count: u64, capacity: Capacity) -> Known {
        let numbers = [RULES, client_count, capacity.words() as u64];
        let bytes: Vec<u8> = numbers.into_iter().flat_map(u64::to_be_bytes).collect();
        Known { rows: 0, chain: hash(&bytes) }
    }

    /// One row more.
    pub fn and(self, id: u64, index: u64, change: &Change) -> Known {
        let mut bytes = Vec::with_capacity(64);
        bytes.extend(self.chain);
        bytes.extend([id, index, change.kind(), change.client().unwrap_or(0)].into_iter().flat_map(u64::to_be_bytes));
        change.input(&mut bytes);
        Known { rows: self.rows + 1, chain: hash(&bytes) }
    }
}

fn hash(bytes: &[u8]) -> Chain {
    *digest::sha256(bytes).first_chunk().expect("16 of 32 bytes")
}

/// The number of an answer in a row: the library's own.
pub(crate) fn number_of(told: Told) -> u64 {
    match told {
        Ok(answer) => answer.number(),
        Err(refusal) => FIRST_REFUSAL + refusal.number(),
    }
}

/// An answer in a row, as the session program prints it.
pub(crate) fn reply(number: u64) -> String {
    match number {
        0 => "ok".into(),
        1 => "was".into(),
        2 => "behind".into(),
        FIRST_REFUSAL..=LAST_REFUSAL => format!("ref {}", number - FIRST_REFUSAL),
        _ if number >> 32 == 1 => format!("entry {} place {}", (number >> 16) & 0xFFFF, number & 0xFFFF),
        _ => format!("number {number}"),
    }
}

/// What the library adds to the number of a refusal.
const FIRST_REFUSAL: u64 = 256;
const LAST_REFUSAL: u64 = FIRST_REFUSAL + 255;

#[cfg(test)]
mod tests {
    use super::*;

    fn hex(bytes: &[u8]) -> String {
        bytes.iter().map(|byte| format!("{byte:02x}")).collect()
    }

    // The example of docs/SHARING.md, and row 0 as Python's hashlib gives it.
    #[test]
    fn chain_values() {
        assert_eq!(hex(&Known::fresh(2, Capacity::Large).chain), "97e3beeaa5b465ced5c68800b0faa978");
        let first = Known { rows: 0, chain: [0; 16] }.and(1 << 32, 0, &Change::Step(0, Step::write(201)));
        assert_eq!((first.rows, hex(&first.chain).as_str()), (1, "ae200b99a32c5bd4fb9a419961ed760c"));
        let second = first.and(1 << 32, 1, &Change::WriteScores(1, vec![40, 372]));
        assert_eq!((second.rows, hex(&second.chain).as_str()), (2, "03fbf7df876ad7b4804720974319b0d8"));
    }

    #[test]
    fn replies() {
        let at = |number, place| {
            Answer::Stored(cindrolf::Position {
                number: cindrolf::EntryNumber(number),
                place: cindrolf::LedgerPlace(place),
            })
        };
        for answer in [Answer::Done, Answer::WasClosed, Answer::Behind, at(0, 0), at(4095, 17)] {
            assert_eq!(reply(number_of(Ok(answer))), answer.to_string());
        }
        assert_eq!(reply(number_of(Err(Refusal::LedgerFenced))), "ref 12");
        assert_eq!(reply(3), "number 3");
    }
}
