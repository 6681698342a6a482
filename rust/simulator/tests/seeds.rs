//! A seed gives the same run each time, and the judge tells a sound protocol from a wrong one.

use simulator::fault::Fault;
use simulator::world::run;

#[test]
fn a_seed_reproduces_its_run() {
    for seed in 0..200 {
        let first = run(seed, None).expect("no promise is broken");
        assert_eq!(run(seed, None), Ok(first), "seed {seed}");
    }
    let told = (0..200).map(|seed| run(seed, None).unwrap().counts.told).collect::<Vec<_>>();
    assert!(told.iter().any(|&count| count != told[0]), "other seeds are other runs");
}

#[test]
fn a_planted_mistake_is_the_same_breach_each_time() {
    for fault in [Fault::TellsTheGuess, Fault::TakesAnyRowForItsOwn, Fault::ReadsTheReplyTheWrongWay] {
        let breach = |seed| run(seed, Some(fault)).err();
        let seed = (0..100).find(|&seed| breach(seed).is_some()).expect("a run in which it makes a difference");
        assert_eq!(breach(seed), breach(seed));
    }
}
