//! Compares the limits with those of the other languages, by their names, and with the reference's table.

use std::collections::BTreeMap;

const HEADER: &str = include_str!("../../../include/cindrolf.h");
const RATTLE: &str = include_str!("../../../crates/limits/src/lib.rt");
const REFERENCE: &str = include_str!("../../../docs/REFERENCE.md");

/// The limits in Rust that another language has too.
fn in_rust() -> BTreeMap<&'static str, u64> {
    BTreeMap::from([
        ("CLIENT_LIMIT", cindrolf::CLIENT_LIMIT),
        ("VALUE_LIMIT", cindrolf::VALUE_LIMIT),
        ("SCORES_LIMIT", cindrolf::SCORES_LIMIT as u64),
        ("SCORE_LIMIT", cindrolf::SCORE_LIMIT.into()),
        ("MARKS_LIMIT", cindrolf::MARKS_LIMIT as u64),
        ("WINDOW_LIMIT", cindrolf::WINDOW_LIMIT),
        ("REARRANGE_LIMIT", cindrolf::REARRANGE_LIMIT as u64),
        ("INPUT_LIMIT", limits::INPUT_LIMIT as u64),
    ])
}

/// What a constant is written as: a number, or one below a power of two.
fn value(text: &str) -> u64 {
    let text: String = text.replace("UINT64_C", "").chars().filter(|letter| !"() ".contains(*letter)).collect();
    match text.strip_prefix("1<<").and_then(|text| text.strip_suffix("-1")) {
        Some(bits) => (1 << bits.parse::<u32>().expect("a number of bits")) - 1,
        None => text.parse().expect("a number"),
    }
}

/// The header's limits: `#define CINDROLF_NAME VALUE`.
fn in_c() -> BTreeMap<&'static str, u64> {
    let lines = HEADER.lines().filter_map(|line| line.strip_prefix("#define CINDROLF_"));
    let limits = lines.filter_map(|line| line.split_once(' ')).filter(|(name, _)| name.ends_with("_LIMIT"));
    limits.map(|(name, text)| (name, value(text.split("/*").next().expect("a value")))).collect()
}

/// Rattle's limits: `pub const NAME: TYPE = VALUE;`.
fn in_rattle() -> BTreeMap<&'static str, u64> {
    let lines = RATTLE.lines().filter_map(|line| line.strip_prefix("pub const ")?.strip_suffix(';')?.split_once(": "));
    let limits = lines.filter(|(name, _)| name.ends_with("_LIMIT"));
    limits.map(|(name, text)| (name, value(text.split_once(" = ").expect("a value").1))).collect()
}

#[test]
fn a_limit_is_the_same_in_each_language() {
    let (rust, c, rattle) = (in_rust(), in_c(), in_rattle());
    assert!(c.len() >= 7 && rattle.len() >= 7, "{c:?} {rattle:?}");
    for (name, limit) in &rust {
        assert!(c.contains_key(name) || rattle.contains_key(name), "{name} is in no other language");
        for other in [&c, &rattle] {
            assert_eq!(*other.get(name).unwrap_or(limit), *limit, "{name}");
        }
    }
    assert!(c.keys().all(|name| rust.contains_key(name)), "a limit of the header that Rust lacks: {c:?}");
    // The number of the next ledger goes one beyond the number of the last.
    assert_eq!(rattle["NEXT_LEDGER_LIMIT"], cindrolf::LEDGER_LIMIT + 1);
}

/// A number as the reference has it, as 16,384.
fn printed(number: u64) -> String {
    let digits = number.to_string();
    let groups = digits.as_bytes().rchunks(3).rev().map(|group| String::from_utf8_lossy(group));
    groups.collect::<Vec<_>>().join(",")
}

#[test]
fn the_reference_has_the_limits() {
    let rows = [
        ("a client number in a step word", cindrolf::CLIENT_NUMBER_LIMIT),
        ("a client number in a session's line", cindrolf::CLIENT_NUMBER_LIMIT),
        ("ledgers of a log, listed or not", cindrolf::LEDGER_LIMIT),
        ("bytes of a session's input", limits::INPUT_LIMIT as u64),
        ("seconds that a step waits for a lock", limits::WAIT_LIMIT),
        ("rows of one client in a shared log", limits::CLIENT_ROW_LIMIT.into()),
        ("rows of marks and rights in a shared log", limits::OTHER_ROW_LIMIT.into()),
        ("rows of a shared log", limits::ROW_LIMIT as u64),
        ("bytes of a row's note", limits::NOTE_LIMIT as u64),
        ("bytes of the name of a row's process", limits::PROCESS_LIMIT as u64),
        ("lines that `step` takes as one request", limits::BATCH_LIMIT as u64),
        ("reads that `write` takes as one request", limits::BATCH_LIMIT as u64),
        ("rows that a page shows", limits::PAGE_ROW_LIMIT as u64),
        ("bytes of a plan's file", limits::PLAN_LIMIT as u64),
        ("bytes of a line of reads", limits::READ_LINE_LIMIT as u64),
        ("bytes of one field of its file", limits::FIELD_LIMIT as u64),
        ("bytes of the path of its file", limits::PATH_LIMIT as u64),
        ("bytes of the name of a log on a server", limits::LOG_NAME_LIMIT as u64),
        ("steps of a session whose page has its picture", limits::DRAWN_LIMIT as u64),
    ];
    let (_, table) = REFERENCE.split_once("\n## All limits\n").expect("the table of limits");
    for (what, limit) in rows {
        let row = format!("| {what} | {} | ", printed(limit));
        assert_eq!(table.lines().filter(|line| line.starts_with(&row)).count(), 1, "{row}");
    }
}

// The longest step: the highest client number that a line has, and the largest number of 64 bits.
#[test]
fn the_longest_line() {
    let longest = format!("W {} {}", cindrolf::CLIENT_NUMBER_LIMIT, u64::MAX);
    assert_eq!(longest.len(), limits::LINE_LIMIT);
}
