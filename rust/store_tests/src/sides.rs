//! Measurements of two sides that take turns, so that both meet the same machine.

use std::time::Duration;

/// How long a side has its turn.
pub const SLOT: Duration = Duration::from_millis(100);

/// The side of the store's single writes.
pub const STORE: usize = 0;
/// The side of what they are compared with.
pub const BESIDE: usize = 1;

/// The side whose turn it is so long after the beginning.
pub fn side_at(gone: Duration) -> usize {
    (gone.as_millis() / SLOT.as_millis() % 2) as usize
}

/// What one writer did on one side.
#[derive(Clone, Copy, Default)]
pub struct Side {
    /// How many writes were acknowledged.
    pub writes: u64,
    /// The longest time that one took.
    pub longest: Duration,
}

impl Side {
    /// Counts writes that were acknowledged together, and took so long.
    pub fn add(&mut self, writes: u64, taken: Duration) {
        self.writes += writes;
        self.longest = self.longest.max(taken);
    }
}

/// The writes a second of all writers on one side, which has half of the time.
pub fn rate(sides: &[[Side; 2]], side: usize, seconds: u64) -> f64 {
    sides.iter().map(|sides| sides[side].writes).sum::<u64>() as f64 / (seconds as f64 / 2.0)
}

/// Jain's index of fairness on one side: 1 where all writers have as many writes.
pub fn jain(sides: &[[Side; 2]], side: usize) -> f64 {
    let counts: Vec<f64> = sides.iter().map(|sides| sides[side].writes as f64).collect();
    let (sum, squares) = (counts.iter().sum::<f64>(), counts.iter().map(|count| count * count).sum::<f64>());
    sum * sum / (counts.len() as f64 * squares)
}

/// The longest time that a write took on one side.
pub fn longest(sides: &[[Side; 2]], side: usize) -> Duration {
    sides.iter().map(|sides| sides[side].longest).max().unwrap_or_default()
}
