//! A row of the shared table, and the chain value that it carries.

use crate::change::Change;

/// The chain value of all rows up to one: the first 16 bytes of a SHA-256.
pub type Chain = [u8; 16];

/// The chain value before the first row.
pub const FIRST_CHAIN: Chain = [0; 16];

/// A row: a single step of a request.
#[derive(Clone, Debug, PartialEq, Eq)]
pub struct Row {
    /// The id of its request.
    pub id: u64,
    /// Which step of the request it is, from 0.
    pub index: u32,
    /// The step.
    pub change: Change,
    /// The chain value of all rows up to this one.
    pub chain: Chain,
    /// Which asking the row is of. Only the judge looks at it.
    pub asking: usize,
}

/// The bytes of a row that its chain value is over, as docs/SHARING.md has them.
pub fn encoded(id: u64, index: u32, change: Change) -> Vec<u8> {
    let numbers = [id, index.into(), change.kind(), change.client()];
    let mut bytes: Vec<u8> = numbers.into_iter().flat_map(u64::to_be_bytes).collect();
    bytes.extend(change.input());
    bytes
}

/// The chain value of a row after one that has the chain value `before`.
pub fn chained(before: Chain, id: u64, index: u32, change: Change) -> Chain {
    let mut bytes = before.to_vec();
    bytes.extend(encoded(id, index, change));
    *digest::sha256(&bytes).first_chunk().expect("16 of 32 bytes")
}

/// How many rows a controller knows, and the chain value of the last one.
#[derive(Clone, Copy, Debug, PartialEq, Eq)]
pub struct Known {
    /// How many.
    pub rows: usize,
    /// The chain value of the last.
    pub chain: Chain,
    /// The id of the last. Only an engine that is wrong looks at it.
    pub last_id: u64,
}

impl Known {
    /// No row.
    pub const NOTHING: Known = Known { rows: 0, chain: FIRST_CHAIN, last_id: 0 };

    /// One row more.
    pub fn and(self, id: u64, index: u32, change: Change) -> Known {
        Known { rows: self.rows + 1, chain: chained(self.chain, id, index, change), last_id: id }
    }
}

/// The requests in these rows: consecutive rows with one id, of which the first has index 0.
pub fn requests(rows: &[Row]) -> impl Iterator<Item = &[Row]> {
    rows.chunk_by(|one, next| one.id == next.id && next.index == one.index + 1)
}

#[cfg(test)]
mod tests {
    use super::*;
    use cindrolf::Step;

    // The example of docs/SHARING.md.
    #[test]
    fn chain_values() {
        let hex = |bytes: &[u8]| bytes.iter().map(|byte| format!("{byte:02x}")).collect::<String>();
        let (write, scores) = (Change::Step(0, Step::write(201)), Change::WriteScores(1, &[40, 372]));
        let first = "0000000100000000 0000000000000000 0000000000000008 0000000000000000 00000000000000c9";
        assert_eq!(hex(&encoded(1 << 32, 0, write)), first.replace(' ', ""));
        let second = "0000000100000000 0000000000000001 000000000000000a 0000000000000001 2800 7401";
        assert_eq!(hex(&encoded(1 << 32, 1, scores)), second.replace(' ', ""));
        let chain = chained(FIRST_CHAIN, 1 << 32, 0, write);
        assert_eq!(hex(&chain), "ae200b99a32c5bd4fb9a419961ed760c");
        assert_eq!(hex(&chained(chain, 1 << 32, 1, scores)), "03fbf7df876ad7b4804720974319b0d8");
    }
}
