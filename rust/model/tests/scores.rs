//! Compares the parts and sums of scores with numbers that were computed apart from the model.

use model::scores::{HIGHEST, part, sum};

#[test]
fn parts_follow_the_rule() {
    let known = [
        (0, 1_000_000_000_000),
        (1, 944_060_876_285),
        (2, 891_250_938_133),
        (39, 105_925_372_517),
        (40, 100_000_000_000),
        (41, 94_406_087_628),
        (100, 3_162_277_660),
        (371, 530),
        (372, 501),
    ];
    for (score, expected) in known {
        assert_eq!(part(score), expected, "score {score}");
    }
    let all: u64 = (0..=HIGHEST).map(part).sum();
    assert_eq!(all, 17_876_576_054_860);
}

#[test]
fn sums_and_their_refusals() {
    assert_eq!(sum(&[]), Err(18));
    assert_eq!(sum(&[0; 4_000]), Ok(4_000_000_000_000_000));
    assert_eq!(sum(&[0; 4_001]), Err(18));
    assert_eq!(sum(&[373; 4_001]), Err(18), "18 comes before 19");
    assert_eq!(sum(&[0, 373]), Err(19));
    assert_eq!(sum(&[u16::MAX]), Err(19));
    assert_eq!(sum(&[372]), Ok(501));
    assert_eq!(sum(&[40, 372, 40]), Ok(200_000_000_501), "a score that comes twice counts twice");
}
