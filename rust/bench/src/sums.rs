//! The sum of a list of scores as plain Rust would have it.
//!
//! Both forms come to seven instructions a score. The faster one is the one to compare with.

/// The part of each score.
pub type Parts = [u64; 373];

/// The parts, by the model.
pub fn parts() -> Parts {
    std::array::from_fn(|score| model::scores::part(score as u16))
}

fn has_right_length(scores: &[u16]) -> bool {
    (1..=4_000).contains(&scores.len())
}

/// A loop that leaves at the first score that is too high.
pub fn by_loop(parts: &Parts, scores: &[u16]) -> Option<u64> {
    if !has_right_length(scores) {
        return None;
    }
    let mut sum = 0;
    for &score in scores {
        if score > 372 {
            return None;
        }
        sum += parts[usize::from(score)];
    }
    Some(sum)
}

/// The same by an iterator.
pub fn by_iterator(parts: &Parts, scores: &[u16]) -> Option<u64> {
    if !has_right_length(scores) {
        return None;
    }
    scores.iter().map(|&score| parts.get(usize::from(score))).sum()
}

#[cfg(test)]
mod tests {
    use super::*;
    use model::lists::any_scores;
    use model::random::Random;

    // A wrong sum may be a fast one.
    #[test]
    fn sums_agree_with_the_model() {
        let (parts, mut random) = (parts(), Random::new(5));
        for _ in 0..2_000 {
            let scores = any_scores(&mut random);
            let expected = model::scores::sum(scores).ok();
            assert_eq!(by_loop(&parts, scores), expected);
            assert_eq!(by_iterator(&parts, scores), expected);
        }
    }
}
