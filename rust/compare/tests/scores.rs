//! The library's part of every score, against the rule worked out on whole numbers.

use cindrolf::{EntryNumber, LedgerPlace, Log, Position, Progress, SCORE_LIMIT};
use model::scores::part;

#[test]
fn every_part() {
    let mut log = Log::fresh(1).unwrap();
    for step in [Log::become_leader, Log::fetch, Log::create] {
        step(&mut log, 0).unwrap();
    }
    assert_eq!(log.append(0), Ok(Progress::Done));
    for score in 0..=SCORE_LIMIT {
        let (number, place) = (EntryNumber(u64::from(score)), LedgerPlace(u64::from(score)));
        assert_eq!(log.write_scores(0, &[score]), Ok(Position { number, place }));
    }
    let view = log.view();
    for score in 0..=SCORE_LIMIT {
        let entry = view.entry(EntryNumber(u64::from(score))).expect("it was written");
        assert_eq!(entry.value, part(score), "score {score}");
    }
}
