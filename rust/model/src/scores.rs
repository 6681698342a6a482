//! Quality scores: the part of each, computed by the reference's rule on whole numbers of any size, and the sum of a
//! list.

use std::sync::OnceLock;

/// The highest score.
pub const HIGHEST: u16 = 372;

/// The most scores that a list may have.
pub const LIMIT: usize = 4_000;

/// The error probability of score 0, in parts of 10^-12.
const WHOLE: u64 = 1_000_000_000_000;

/// A whole number of at least 1, its least significant 64 bits first, and no zero word last.
#[derive(Clone)]
struct Number(Vec<u64>);

impl Number {
    fn ten_to_the(exponent: u16) -> Self {
        (0..exponent).fold(Number(vec![1]), |power, _| power.times(10))
    }

    /// The product with a factor of at least 1.
    fn times(mut self, factor: u64) -> Self {
        let mut carry = 0;
        for word in &mut self.0 {
            let product = u128::from(*word) * u128::from(factor) + carry;
            *word = product as u64;
            carry = product >> 64;
        }
        if carry > 0 {
            self.0.push(carry as u64);
        }
        self
    }

    fn is_at_most(&self, other: &Number) -> bool {
        let by_length = self.0.len().cmp(&other.0.len());
        by_length.then_with(|| self.0.iter().rev().cmp(other.0.iter().rev())).is_le()
    }
}

/// The largest whole E with E^40 * 10^score at most 10^480, by halving.
fn largest(score: u16) -> u64 {
    let (power, bound) = (Number::ten_to_the(score), Number::ten_to_the(480));
    let within = |e: u64| (0..40).fold(power.clone(), |product, _| product.times(e)).is_at_most(&bound);
    // 0 is within, and one more than the whole is not.
    let (mut low, mut high) = (0, WHOLE + 1);
    while high - low > 1 {
        let middle = low + (high - low) / 2;
        if within(middle) { low = middle } else { high = middle }
    }
    low
}

/// The part of a score, which is at most [`HIGHEST`]. All are worked out at the first call.
pub fn part(score: u16) -> u64 {
    static PARTS: OnceLock<Vec<u64>> = OnceLock::new();
    PARTS.get_or_init(|| (0..=HIGHEST).map(largest).collect())[usize::from(score)]
}

/// The sum of the parts of these scores, or the refusal's number: 18 where there are none or too many, then 19 where one is too high.
pub fn sum(scores: &[u16]) -> Result<u64, u64> {
    if scores.is_empty() || scores.len() > LIMIT {
        return Err(18);
    }
    if scores.iter().any(|&score| score > HIGHEST) {
        return Err(19);
    }
    Ok(scores.iter().map(|&score| part(score)).sum())
}
