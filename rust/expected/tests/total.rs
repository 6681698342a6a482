//! Compares the model's run totals with outputs that were worked out by hand, and with the transcript's chain.

use expected::files::{input, input_names, root};
use expected::session::transcript;
use expected::total::{exact, output, rounded};

/// The last two lines of each, without `total` and `rounded`.
const ENDS: &[(&str, &str, &str)] = &[
    ("reference_session", "0.000000000016", "0.000"),
    ("total_no_line", "0.000000000000", "0.000"),
    ("total_half_minus_1", "0.000499999999", "0.000"),
    ("total_half", "0.000500000000", "0.001"),
    ("total_tie_odd", "0.001500000000", "0.002"),
    ("total_tie_even", "0.002500000000", "0.003"),
    ("total_carry_1_minus_1", "0.999499999999", "0.999"),
    ("total_carry_1", "0.999500000000", "1.000"),
    ("total_carry_1000", "999.999500000000", "1000.000"),
    ("total_largest_value", "4503.599627370495", "4503.600"),
    ("total_three_ledgers_of_a_half", "0.001500000000", "0.002"),
    ("total_three_ledgers_below_a_half", "0.001200000000", "0.001"),
    ("total_refused_after_fence", "0.000999999999", "0.001"),
    ("total_bad_lines_between", "0.000000000017", "0.000"),
];

#[test]
fn ends_by_hand() {
    for (name, total, rounded) in ENDS {
        let text = output(&input(name).unwrap());
        assert!(text.ends_with(&format!("total {total}\nrounded {rounded}\n")), "{name}: {text}");
    }
}

#[test]
fn ledgers_by_hand() {
    let lines = |name: &str| output(&input(name).unwrap());
    assert!(lines("total_empty_ledger").starts_with("ledger 1 entries 0 sum 0.000000000000\ntotal "));
    let closed_between = "ledger 1 entries 1 sum 0.000000000001\nledger 2 entries 0 sum 0.000000000000\n\
                          ledger 3 entries 1 sum 0.000000000002\ntotal ";
    assert!(lines("total_empty_ledger_closed_between").starts_with(closed_between));
    assert!(lines("total_gap_first").starts_with("ledger 2 entries 1 sum 0.000000000006\ntotal "));
    let gap = "ledger 1 entries 1 sum 0.000000000001\nledger 3 entries 1 sum 0.000000000020\ntotal ";
    assert!(lines("total_gap_middle").starts_with(gap));
    assert!(lines("total_no_ledger_listed").starts_with("total "));
    assert_eq!(lines("bytes_16385"), "too long\n");
    assert_eq!(lines("start_unended"), "bad start\n");
}

// The largest total of a log, which no input reaches.
#[test]
fn largest_total() {
    let largest = 4096 * ((1 << 52) - 1);
    assert_eq!((exact(largest), rounded(largest)), ("18446744.073709547520".into(), "18446744.074".into()));
}

// The total is the sum of the chain's values, and the sum of the ledgers' sums.
#[test]
fn totals_are_sums() {
    let parts = |amount: &str| amount.replace('.', "").parse::<u128>().unwrap();
    for name in input_names().unwrap() {
        let input = input(&name).unwrap();
        let (text, chain) = (output(&input), transcript(&input));
        let Some(chain) = chain.lines().last().and_then(|line| line.strip_prefix("chain")) else { continue };
        let values = chain.split_whitespace().map(|entry| entry.split_once(':').unwrap().1.parse::<u128>().unwrap());
        let total = text.lines().find_map(|line| line.strip_prefix("total ")).map(parts);
        assert_eq!(total, Some(values.sum()), "{name}");
        let sums = text.lines().filter_map(|line| line.split_once(" sum ")).map(|(_, sum)| parts(sum));
        assert_eq!(total, Some(sums.sum()), "{name}");
    }
}

// The same accepted reads end in the same two lines, without a handover and with five.
#[test]
fn whoever_led() {
    let [one, other] = ["library", "library_handovers"]
        .map(|name| output(&std::fs::read(root().join(format!("examples/{name}.session"))).unwrap()));
    let end = |text: &str| text[text.find("total").unwrap()..].to_string();
    assert_eq!(end(&one), "total 0.008952901655\nrounded 0.009\n");
    assert_eq!(end(&one), end(&other));
    assert_eq!((one.lines().count(), other.lines().count()), (3, 8));
}
