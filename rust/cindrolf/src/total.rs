//! The sum of a ledger and the run total, in parts of 10^-12.

use std::fmt;

/// How many entries a ledger has, and the sum of their values.
#[derive(Clone, Copy, Debug, PartialEq, Eq, Hash)]
pub struct LedgerSum {
    /// How many entries it has.
    pub entries: u64,
    /// The sum of their values.
    pub sum: u64,
}

/// The sum of a run's values: `ones` × 10^12 + `parts`, exact for every log, and `rounded`.
///
/// On a log that began fresh it stays below 2^64. On words that no fresh log leads to, a ledger may be listed many times,
/// and then its values count as often.
///
/// ```
/// use cindrolf::RunTotal;
///
/// let total = RunTotal { ones: 1, parts: 500_000_007, rounded: 1001 };
/// assert_eq!(total.to_string(), "1.000500000007");
/// ```
#[derive(Clone, Copy, Debug, PartialEq, Eq, Hash)]
pub struct RunTotal {
    /// Whole units of 10^12 parts.
    pub ones: u64,
    /// The parts beside them, below 10^12.
    pub parts: u64,
    /// The whole in thousandths of a unit, rounded once, a half up.
    pub rounded: u64,
}

/// The exact total in units, with its twelve decimals.
impl fmt::Display for RunTotal {
    fn fmt(&self, f: &mut fmt::Formatter<'_>) -> fmt::Result {
        write!(f, "{}.{:012}", self.ones, self.parts)
    }
}
