//! Random lists of scores: those that can be written, and those with none, with too many or with one that is too high.

use crate::random::Random;
use crate::scores::{HIGHEST, LIMIT};
use std::sync::OnceLock;

/// Scores that are too high; several have a good score in their lowest bits.
const TOO_HIGH: [u16; 8] = [HIGHEST + 1, HIGHEST + 2, 512, 1024, 0x8000, 0x8001, u16::MAX - 1, u16::MAX];

/// Good scores between two that are too high: more than a list may have.
const BETWEEN: usize = 8_192;

/// More scores than 16 bits count.
const VERY_MANY: usize = (1 << 16) + 1;

/// Scores in a row, of which the lists are parts: before and after each that is too high stand so many good ones.
fn row() -> &'static [u16] {
    static ROW: OnceLock<Vec<u16>> = OnceLock::new();
    ROW.get_or_init(|| {
        let mut random = Random::new(0);
        let mut row = good(&mut random);
        for score in TOO_HIGH {
            row.push(score);
            row.extend(good(&mut random));
        }
        row
    })
}

fn good(random: &mut Random) -> Vec<u16> {
    (0..BETWEEN).map(|_| random.below(u64::from(HIGHEST) + 1) as u16).collect()
}

/// Where in the row one of those stands that are too high.
fn any_too_high(random: &mut Random) -> usize {
    BETWEEN + random.below(TOO_HIGH.len() as u64) as usize * (BETWEEN + 1)
}

/// A number of scores, mostly a small one, and often at an end of what a list may have.
fn any_count(random: &mut Random) -> usize {
    match random.below(16) {
        0 => 0,
        1 => LIMIT - 1,
        2 => LIMIT,
        3 => LIMIT + 1,
        4 => random.below(BETWEEN as u64) as usize,
        5..8 => 1,
        _ => random.between(2, 20) as usize,
    }
}

/// A list of scores of any kind.
pub fn any_scores(random: &mut Random) -> &'static [u16] {
    let count = any_count(random);
    match random.below(16) {
        0 => &[0; LIMIT],
        1 => &row()[..VERY_MANY],
        2..6 => with_too_high(random, count),
        _ => {
            let start = random.below((BETWEEN - count) as u64 + 1) as usize;
            &row()[start..][..count]
        }
    }
}

/// A list with one score that is too high: the first, the last or any of them. A list of none stays one.
fn with_too_high(random: &mut Random, count: usize) -> &'static [u16] {
    let last = count.saturating_sub(1);
    let place = match random.below(3) {
        0 => 0,
        1 => last,
        _ => random.below(last as u64 + 1) as usize,
    };
    &row()[any_too_high(random) - place..][..count]
}

#[cfg(test)]
mod tests {
    use super::*;
    use crate::scores::sum;

    // What the comparisons rest on: every kind of list comes up.
    #[test]
    fn lists_of_every_kind() {
        let mut random = Random::new(6);
        let lists: Vec<_> = (0..2_000).map(|_| any_scores(&mut random)).collect();
        let high = |score: Option<&u16>| score.is_some_and(|&score| score > HIGHEST);
        let met = |kind: &dyn Fn(&[u16]) -> bool| lists.iter().any(|list| kind(list));
        assert!(met(&|list| list.is_empty()));
        assert!(met(&|list| list.len() == LIMIT && sum(list).is_ok()));
        assert!(met(&|list| sum(list) == Ok(4_000_000_000_000_000)));
        assert!(met(&|list| list.len() == LIMIT && sum(list) == Err(19)));
        assert!(met(&|list| list.len() == LIMIT + 1 && high(list.first())));
        assert!(met(&|list| list.len() == VERY_MANY && sum(list) == Err(18)));
        for score in TOO_HIGH {
            assert!(
                met(&|list| list.len() > 1 && list.len() <= LIMIT && list.first() == Some(&score)),
                "{score} first"
            );
            assert!(met(&|list| list.len() > 1 && list.len() <= LIMIT && list.last() == Some(&score)), "{score} last");
        }
        assert!(met(&|list| sum(list) == Err(19) && !high(list.first()) && !high(list.last())));
    }
}
