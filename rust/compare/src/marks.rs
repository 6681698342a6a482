//! Marks of any kind beside a log: well formed, nearly so, random, and of wrong lengths; and the calls on them.

use crate::call::Call;
use model::marks::{LIMIT, MARK_WORDS, Mark, buffer};
use model::random::Random;

/// A marks buffer beside a log of so many entries, mostly well formed.
pub fn any_marks(random: &mut Random, entry_count: u64) -> Vec<u64> {
    let mut words = buffer(&well_formed(random, entry_count));
    match random.below(12) {
        0..=6 => {}
        7..=9 => damage(random, &mut words, entry_count),
        10 => words.resize(wrong_length(random), random.pick(&[0, 1, u64::MAX])),
        _ => words.fill_with(|| random.word()),
    }
    words
}

/// Calls on these marks: each twice, by names that are kept and by others.
pub fn calls(random: &mut Random, words: &[u64]) -> Vec<Call> {
    (0..2)
        .flat_map(|_| [Call::SetMark, Call::DropMark, Call::ReadMark])
        .map(|call| call(any_name(random, words)))
        .collect()
}

/// A name: one of those in the buffer, one like it, 0 or any.
fn any_name(random: &mut Random, words: &[u64]) -> u64 {
    let names: Vec<u64> = words.iter().step_by(2).copied().filter(|&name| name != 0).collect();
    match random.below(8) {
        0 => 0,
        1 => new_name(random),
        2 if !names.is_empty() => random.pick(&names) ^ (1 << random.below(64)),
        3 => words.last().copied().unwrap_or(1),
        _ if !names.is_empty() => random.pick(&names),
        _ => new_name(random),
    }
}

/// A name that is not 0, often a small number or one with only high bits.
fn new_name(random: &mut Random) -> u64 {
    match random.below(4) {
        0 => random.between(1, 40),
        1 => random.between(1, 40) << 56,
        _ => random.word().max(1),
    }
}

/// Marks of different names, none with more entries than the log.
fn well_formed(random: &mut Random, entry_count: u64) -> Vec<Mark> {
    let most = match random.below(6) {
        0 => 0,
        1 | 2 => LIMIT,
        3 => LIMIT - 1,
        4 => 1,
        _ => random.between(2, LIMIT as u64) as usize,
    };
    let mut marks: Vec<Mark> = vec![];
    while marks.len() < most {
        let name = new_name(random);
        let count = match random.below(4) {
            0 => 0,
            1 => entry_count,
            _ => random.below(entry_count + 1),
        };
        if marks.iter().all(|mark| mark.name != name) {
            marks.push(Mark { name, count });
        }
    }
    marks
}

/// One change, most of them among the marks that are kept or just behind.
fn damage(random: &mut Random, words: &mut [u64], entry_count: u64) {
    let kept = words.iter().step_by(2).take_while(|&&name| name != 0).count();
    let pair = 2 * random.below((kept as u64 + 2).min(LIMIT as u64)) as usize;
    let other = 2 * random.below(LIMIT as u64) as usize;
    match random.below(8) {
        0 => words[pair] = 0,
        1 => words[pair] = words[other],
        2 => words[pair + 1] = entry_count.saturating_add(1) << 51,
        3 => words[pair + 1] |= 1 << random.below(51),
        4 => words[other + 1] ^= 1 << random.below(64),
        5 => words[other] ^= 1 << random.below(64),
        6 => words[pair] = new_name(random),
        _ => words[pair..].rotate_right(2),
    }
}

fn wrong_length(random: &mut Random) -> usize {
    match random.below(4) {
        0 => 0,
        1 => random.pick(&[1, 2, MARK_WORDS - 2, MARK_WORDS - 1]),
        2 => random.pick(&[MARK_WORDS + 1, MARK_WORDS + 2, 2 * MARK_WORDS]),
        _ => random.below(2 * MARK_WORDS as u64) as usize,
    }
}

#[cfg(test)]
mod tests {
    use super::*;
    use model::marks::kept;

    // What the comparisons rest on: every kind of buffer comes up.
    #[test]
    fn marks_of_every_kind() {
        let mut random = Random::new(4);
        let all: Vec<_> = (0..2_000).map(|_| any_marks(&mut random, 5)).collect();
        let met = |kind: &dyn Fn(&[u64]) -> bool| all.iter().any(|words| kind(words));
        let names = |words: &[u64]| words.iter().step_by(2).copied().collect::<Vec<_>>();
        for count in [0, 1, LIMIT - 1, LIMIT] {
            assert!(met(&|words| kept(words, 5).is_some_and(|marks| marks.len() == count)), "{count} marks");
        }
        for length in [0, MARK_WORDS - 1, MARK_WORDS + 1] {
            assert!(met(&|words| words.len() == length), "{length} words");
        }
        // Taken with a greater count, and not with the log's.
        assert!(met(&|words| kept(words, 5).is_none() && kept(words, 6).is_some()), "a count above the log's");
        assert!(met(&|words| names(words)[..].windows(2).any(|pair| pair[0] == 0 && pair[1] != 0)), "a gap");
        let twice = |words: &[u64]| {
            let names: Vec<u64> = names(words).into_iter().filter(|&name| name != 0).collect();
            (1..names.len()).any(|place| names[..place].contains(&names[place]))
        };
        assert!(met(&|words| words.len() == MARK_WORDS && twice(words)), "a name kept twice");
        assert!(
            met(&|words| words.chunks_exact(2).any(|pair| pair[0] == 0 && pair[1] != 0)),
            "a zero name with a count"
        );
    }
}
