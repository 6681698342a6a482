//! Rights of any kind for a step: of all clients, with single bits missing, random, not well formed, and of wrong lengths.

use model::Step;
use model::random::Random;
use model::rights::{RIGHTS_WORDS, all, bit};

/// Rights for a step by a client of a log of so many clients, mostly well formed, and mostly with the right that the step needs.
pub fn any_rights(random: &mut Random, client_count: u64, client: u64, step: Step) -> Vec<u64> {
    let mut words = all(client_count);
    match random.below(20) {
        0..=9 => {}
        10 => take_from(random, &mut words, client, step),
        11 => words.iter_mut().for_each(|word| *word &= !bit(step)),
        12 => only(&mut words, client, step),
        13..=15 => words.iter_mut().for_each(|word| *word &= random.word()),
        16 => words[random.below(RIGHTS_WORDS as u64) as usize] |= 1 << random.below(64),
        17 => words.fill_with(|| random.word()),
        18 => words = all(client_count.saturating_add(1)),
        _ => words.resize(wrong_length(random), random.pick(&[0, 1, u64::MAX])),
    }
    words
}

/// One right less: the one that the step needs, or any.
fn take_from(random: &mut Random, words: &mut [u64], client: u64, step: Step) {
    let any = random.below(RIGHTS_WORDS as u64);
    let (client, right) = if random.chance(70) { (client, bit(step)) } else { (any, bit(random.pick(&Step::ALL))) };
    if let Some(word) = words.get_mut(client as usize) {
        *word &= !right;
    }
}

/// No right but the one that the step needs.
fn only(words: &mut [u64], client: u64, step: Step) {
    for (number, word) in (0..).zip(words) {
        *word &= if number == client { bit(step) } else { 0 };
    }
}

fn wrong_length(random: &mut Random) -> usize {
    match random.below(4) {
        0 => 0,
        1 => random.pick(&[1, RIGHTS_WORDS - 2, RIGHTS_WORDS - 1]),
        2 => random.pick(&[RIGHTS_WORDS + 1, RIGHTS_WORDS + 2, 2 * RIGHTS_WORDS]),
        _ => random.pick(&[3, 64, 527]),
    }
}

#[cfg(test)]
mod tests {
    use super::*;
    use model::rights::{allows, well_formed};

    // What the comparisons rest on: every kind of rights comes up.
    #[test]
    fn rights_of_every_kind() {
        let (mut random, count, client, step) = (Random::new(5), 5, 3, Step::Finish);
        let lent: Vec<_> = (0..4_000).map(|_| any_rights(&mut random, count, client, step)).collect();
        let met = |kind: &dyn Fn(&[u64]) -> bool| lent.iter().any(|words| kind(words));
        let formed = |words: &[u64]| words.len() == RIGHTS_WORDS && well_formed(words, count);
        let bits = |words: &[u64]| words.iter().map(|word| word.count_ones()).sum::<u32>();
        assert!(met(&|words| words == all(count)));
        assert!(
            met(&|words| formed(words) && bits(words) == 49 && !allows(words, client, step)),
            "its right alone is missing"
        );
        assert!(met(&|words| formed(words) && bits(words) == 49 && allows(words, client, step)), "another is missing");
        assert!(met(&|words| formed(words) && bits(words) == 1 && allows(words, client, step)), "it has no other");
        assert!(met(&|words| formed(words) && bits(words) < 40 && allows(words, client, step)), "some");
        assert!(met(&|words| formed(words) && bits(words) < 40 && !allows(words, client, step)), "some others");
        assert!(
            met(&|words| words.len() == RIGHTS_WORDS && !well_formed(words, count) && well_formed(words, 16)),
            "a word beyond"
        );
        assert!(met(&|words| words.len() == RIGHTS_WORDS && !well_formed(words, 16)), "a bit outside the ten");
        for length in [0, RIGHTS_WORDS - 1, RIGHTS_WORDS + 1] {
            assert!(met(&|words| words.len() == length), "{length} words");
        }
    }
}
