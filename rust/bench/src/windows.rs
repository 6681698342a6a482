//! The search for a window as plain Rust would have it.

use crate::checks;
use model::layout::{Entry, Head, Place};

/// The walk with a kept sum, over the parts of the listed ledgers, after the idiomatic check.
pub fn first_over(state: &[u64], entries: &[u64], length: u64, limit: u64) -> Option<u64> {
    if !checks::idiomatic(state, entries) || !(1..=256).contains(&length) {
        return None;
    }
    let head = Head::load(state[0]).0;
    let used = &entries[..head.entry_count as usize];
    let part = |&place: &u64| {
        let ledger = Place::load(place).0.ledger;
        let start = used.partition_point(|&word| Entry::load(word).ledger < ledger);
        let end = used.partition_point(|&word| Entry::load(word).ledger <= ledger);
        &used[start..end]
    };
    let list = &state[272..272 + head.list_length as usize];
    let values = || list.iter().flat_map(part).map(|&word| Entry::load(word).value);
    let (mut firsts, mut pasts) = (values(), values());
    let (mut start, mut held, mut sum) = (0, 0, 0);
    loop {
        while held < length {
            sum += pasts.next()?;
            held += 1;
        }
        if limit < sum {
            return Some(start);
        }
        sum -= firsts.next()?;
        held -= 1;
        start += 1;
    }
}

#[cfg(test)]
mod tests {
    use super::*;
    use compare::buffers::{any_window, well_formed};
    use compare::call::Call;
    use model::random::Random;
    use model::words;

    // A wrong walk may be a fast one.
    #[test]
    fn the_walk_agrees_with_the_model() {
        let mut random = Random::new(6);
        for _ in 0..200 {
            let log = well_formed(&mut random);
            let mut reading = vec![0; 255 * 4096];
            let count = words::read_chain(&log.state, &log.entries, &mut reading).expect("a log");
            let Call::FirstWindow(length, limit) = any_window(&mut random, &reading[..count]) else { unreachable!() };
            let expected = words::first_window(&log.state, &log.entries, length, limit).ok().flatten();
            assert_eq!(first_over(&log.state, &log.entries, length, limit), expected);
        }
    }
}
