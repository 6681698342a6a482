//! A single step of a request: a step of a client, or a change of marks or rights.

use cindrolf::{Kind, MarkName, Step};

/// A single step of a request.
#[derive(Clone, Copy, Debug, PartialEq, Eq, Hash)]
pub enum Change {
    /// A client's step.
    Step(u64, Step),
    /// A client's write of the sum of the parts of these scores.
    WriteScores(u64, &'static [u16]),
    /// A mark is set.
    SetMark(MarkName),
    /// A mark is dropped.
    DropMark(MarkName),
    /// A client has these rights from now on.
    SetRights(u64, u64),
}

impl Change {
    /// The number of its kind in a row.
    pub fn kind(self) -> u64 {
        match self {
            Change::Step(_, step) => step.kind().number(),
            Change::WriteScores(..) => 10,
            Change::SetMark(_) => 11,
            Change::DropMark(_) => 12,
            Change::SetRights(..) => 13,
        }
    }

    /// Its client. A mark has none, and 0 in its place.
    pub fn client(self) -> u64 {
        match self {
            Change::Step(client, _) | Change::WriteScores(client, _) | Change::SetRights(client, _) => client,
            Change::SetMark(_) | Change::DropMark(_) => 0,
        }
    }

    /// Its input as a row has it: a number as eight bytes with the most significant one first, scores as two each with
    /// the low one first, a mark's name as it is.
    pub fn input(self) -> Vec<u8> {
        match self {
            Change::Step(_, step) if step.kind() == Kind::Write => step.value().to_be_bytes().to_vec(),
            Change::Step(..) => vec![],
            Change::WriteScores(_, scores) => scores.iter().flat_map(|score| score.to_le_bytes()).collect(),
            Change::SetMark(name) | Change::DropMark(name) => name.0.to_vec(),
            Change::SetRights(_, word) => word.to_be_bytes().to_vec(),
        }
    }
}
