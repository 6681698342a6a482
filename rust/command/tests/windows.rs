//! The first bad stretch of a run, worked out by hand, and compared with sums over every stretch.

mod support;

use model::random::Random;
use support::{Folder, values};

/// Client 0 writes 0.000000000001 and 0.000000000002 to ledger 1, and client 1 then 5 and 0.000000000007 to ledger 2.
fn handed_over() -> Folder {
    let folder = Folder::with_log(2);
    let steps = ["B 0", "F 0", "C 0", "P 0", "W 0 1", "W 0 2", "N 1", "B 1", "F 1", "L 1", "K 1", "C 1", "P 1"];
    folder.steps(&steps);
    folder.steps(&["W 1 5000000000000", "W 1 7"]);
    folder
}

// More than the limit is over it, and as much is not.
#[test]
fn by_hand() {
    let folder = handed_over();
    for (length, limit, line) in [
        ("2", "0.010", "start 1 sum 5.000000000002 client 0 ledger 1 place 1"),
        ("1", "4.999999999999", "start 2 sum 5.000000000000 client 1 ledger 2 place 0"),
        ("1", "5", "none"),
        ("1", "5.0", "none"),
        ("1", "0.000000000001", "start 1 sum 0.000000000002 client 0 ledger 1 place 1"),
        ("1", "0", "start 0 sum 0.000000000001 client 0 ledger 1 place 0"),
        ("2", "5.000000000006", "start 2 sum 5.000000000007 client 1 ledger 2 place 0"),
        ("2", "5.000000000007", "none"),
        ("4", "5.000000000009", "start 0 sum 5.000000000010 client 0 ledger 1 place 0"),
        ("4", "5.00000000001", "none"),
        ("5", "0", "none"),
        ("256", "0", "none"),
        ("2", "18446744.073709551615", "none"),
    ] {
        assert_eq!(folder.output(&["window", "run.log", length, limit]), format!("{line}\n"), "{length} {limit}");
    }
    for length in ["0", "257", "18446744073709551616", "", "+2", "2.0"] {
        let said = folder.failure(2, &["window", "run.log", length, "0.1"]);
        let first = format!("cindrolf: LENGTH is a number of reads, 1 to 256, not '{length}'\nusage: cindrolf window ");
        assert!(
            said.starts_with(&first) || length.is_empty() && said.starts_with("cindrolf: LENGTH is missing\n"),
            "{said}"
        );
    }
}

#[test]
fn limits_that_are_none() {
    let folder = handed_over();
    for limit in [
        "",
        " ",
        "0.",
        ".5",
        ".",
        "+1",
        "1 ",
        " 1",
        "01",
        "00.5",
        "1,5",
        "1e3",
        "0.0000000000001",
        "0.0000000000000",
        "1.5.0",
        "0x1",
        "18446744.073709551616",
        "18446745",
        "99999999999999999999",
        "one",
        "1.-5",
        "½",
    ] {
        let said = folder.failure(2, &["window", "run.log", "2", limit]);
        let first = format!(
            "cindrolf: LIMIT is a number of errors in digits, with a point and up to twelve decimals, such as 0.010; \
             at most 18446744.073709551615; not '{limit}'\nusage: cindrolf window "
        );
        assert!(said.starts_with(&first), "{said}");
    }
    assert!(folder.failure(2, &["window", "run.log", "2", "-1"]).starts_with("cindrolf: there is no option -1\n"));
}

// Sums over every stretch, with the widest values among them.
#[test]
fn beside_every_stretch() {
    let (folder, mut random) = (Folder::with_log(1), Random::new(1));
    folder.steps(&["B 0", "F 0", "C 0", "P 0"]);
    let written: Vec<u64> = (0..300).map(|_| random.word() >> random.between(12, 40)).collect();
    let lines: String = written.iter().map(|value| format!("W 0 {value}\n")).collect();
    assert_eq!(folder.run_on(&["step", "run.log"], lines.as_bytes()).status, Some(0));
    assert_eq!(values(&folder.output(&["chain", "run.log"])), written);
    let decimal = |parts: u128| format!("{}.{:012}", parts / 1_000_000_000_000, parts % 1_000_000_000_000);
    let mut found = 0;
    for _ in 0..150 {
        let length = random.between(1, 256) as usize;
        let sums: Vec<u128> =
            written.windows(length).map(|part| part.iter().map(|&value| u128::from(value)).sum()).collect();
        // A sum that is there, or one beside it.
        let limit = random.pick(&sums) + u128::from(random.below(3)) - 1;
        let first = sums.iter().position(|&sum| sum > limit);
        let line = first.map_or("none\n".into(), |start| {
            format!("start {start} sum {} client 0 ledger 1 place {start}\n", decimal(sums[start]))
        });
        found += usize::from(first.is_some());
        assert_eq!(folder.output(&["window", "run.log", &length.to_string(), &decimal(limit)]), line);
    }
    assert!((20..150).contains(&found), "{found}");
}
