//! Compares the model's transcripts with outputs that were worked out by hand from the reference.

use expected::files::{input, root};
use expected::session::transcript;

/// Inputs and their whole outputs. Lines are parted by ` | ` here.
const WHOLE: &[(&str, &str)] = &[
    (
        "reference_session",
        "1 ok | 2 ok | 3 ok | 4 ok | 5 entry 0 place 0 | 6 ok | 7 ok | 8 ok | 9 ok | 10 ok | 11 ref 12 | 12 \
         ok | 13 ok | 14 entry 1 place 0 | 15 behind | chain 0:7 1:9",
    ),
    (
        "reference_write_after",
        "1 ok | 2 ok | 3 ok | 4 ok | 5 entry 0 place 0 | 6 ok | 7 ok | 8 ok | 9 ok | 10 ok | 11 ref 12 | 12 \
         ok | 13 ok | 14 entry 1 place 0 | 15 ref 12 | chain 0:7 1:9",
    ),
    ("empty_input", "bad start"),
    ("start_unended", "bad start"),
    ("bad_start_zero", "bad start"),
    ("bad_start_17", "bad start"),
    ("bad_start_03", "bad start"),
    ("bad_start_empty_line", "bad start"),
    ("bad_start_259", "bad start"),
    ("bad_start_2_64_plus_3", "bad start"),
    ("start_1_alone", "chain"),
    (
        "start_1",
        "1 ref 3 | 2 ref 3 | 3 ref 4 | 4 ok | 5 ok | 6 ok | 7 ok | 8 entry 0 place 0 | 9 ref 4 | 10 ok | \
         chain 0:5",
    ),
    ("start_16", "1 ok | 2 ok | 3 ok | 4 ok | 5 ok | 6 entry 0 place 0 | 7 ref 3 | 8 ref 3 | 9 ref 3 | chain 15:5"),
    ("line_empty", "1 bad line | 2 ok | 3 bad line | chain"),
    ("line_client_256", "1 bad line | 2 ok | chain"),
    ("line_letter_d", "1 bad line | 2 ok | chain"),
    (
        "line_value_unwanted",
        "1 bad line | 2 bad line | 3 ok | 4 bad line | 5 bad line | 6 ok | 7 bad line | 8 ok | 9 bad line | \
         10 ok | 11 entry 0 place 0 | 12 bad line | 13 ok | 14 ok | 15 ok | 16 ok | 17 bad line | 18 was | \
         19 bad line | chain 0:1",
    ),
    ("value_missing", "1 ok | 2 ok | 3 ok | 4 ok | 5 bad line | 6 entry 0 place 0 | chain 0:1"),
    ("value_2_64", "1 ok | 2 ok | 3 ok | 4 ok | 5 bad line | 6 entry 0 place 0 | chain 0:1"),
    ("value_2_64_minus_1", "1 ok | 2 ok | 3 ok | 4 ok | 5 ref 11 | 6 entry 0 place 0 | chain 0:1"),
    ("value_2_52", "1 ok | 2 ok | 3 ok | 4 ok | 5 ref 11 | 6 entry 0 place 0 | chain 0:1"),
    ("value_2_52_minus_1", "1 ok | 2 ok | 3 ok | 4 ok | 5 entry 0 place 0 | chain 0:4503599627370495"),
    (
        "value_edges_client_15",
        "1 ok | 2 ok | 3 ok | 4 ok | 5 ok | 6 entry 0 place 0 | 7 entry 1 place 1 | 8 entry 2 place 2 | \
         9 ref 11 | 10 entry 3 place 3 | 11 ok | chain 15:0 15:1 15:4503599627370495 15:2251799813685248",
    ),
    ("end_unended_step", "1 ok | 2 bad line | chain"),
    ("end_unended_write", "1 ok | 2 ok | 3 ok | 4 ok | 5 bad line | chain"),
    ("end_unended_only", "1 bad line | chain"),
    ("end_newline", "1 ok | 2 ok | chain"),
    ("end_two_newlines", "1 ok | 2 ok | 3 bad line | chain"),
    (
        "ref_3",
        "1 ref 3 | 2 ref 3 | 3 ref 3 | 4 ref 3 | 5 ref 3 | 6 ref 3 | 7 ref 3 | 8 ref 3 | 9 ref 3 | 10 ref 3 | chain",
    ),
    ("ref_3_before_11", "1 ref 3 | 2 ref 3 | 3 ref 7 | chain"),
    ("ref_4_name", "1 ref 4 | 2 ok | 3 ref 4 | 4 ok | chain"),
    ("ref_4_abdicate", "1 ref 7 | 2 ok | 3 ref 4 | 4 ok | 5 ok | 6 ref 7 | chain"),
    ("ref_5_before_6", "1 ok | 2 ok | 3 ref 5 | chain"),
    ("ref_6", "1 ref 6 | 2 ok | 3 ref 6 | 4 ok | chain"),
    ("ref_7", "1 ref 7 | 2 ref 7 | 3 ref 7 | 4 ref 7 | 5 ref 7 | 6 ref 7 | 7 ref 7 | 8 ref 7 | chain"),
    ("ref_8_stage_1", "1 ok | 2 ref 8 | 3 ref 8 | 4 ref 8 | 5 ref 8 | 6 ref 8 | 7 ref 8 | 8 ok | chain"),
    (
        "ref_8_stage_2",
        "1 ok | 2 ok | 3 ok | 4 ok | 5 ok | 6 ok | 7 ok | 8 ref 8 | 9 ref 8 | 10 ref 8 | 11 ref 8 | 12 ref 8 | \
         13 ref 8 | 14 ok | 15 ok | chain",
    ),
    ("ref_8_stage_3", "1 ok | 2 ok | 3 ref 8 | 4 ref 8 | 5 ref 8 | 6 ref 8 | 7 ref 8 | 8 ref 8 | 9 ok | chain"),
    ("ref_8_stage_4", "1 ok | 2 ok | 3 ok | 4 ref 8 | 5 ref 8 | 6 ref 8 | 7 ref 8 | 8 ref 8 | 9 ref 8 | 10 ok | chain"),
    (
        "ref_8_stage_5",
        "1 ok | 2 ok | 3 ok | 4 ok | 5 ref 8 | 6 ref 8 | 7 ref 8 | 8 ref 8 | 9 ref 8 | 10 entry 0 place 0 | 11 ok | \
         chain 0:1",
    ),
    (
        "ref_8_stage_6",
        "1 ok | 2 ok | 3 ok | 4 ok | 5 ok | 6 ok | 7 ok | 8 ok | 9 ref 8 | 10 ref 8 | 11 ref 8 | 12 ref 8 | \
         13 ref 8 | 14 ref 8 | 15 ok | chain",
    ),
    (
        "finish_left_out",
        "1 ok | 2 ok | 3 ok | 4 ok | 5 entry 0 place 0 | 6 ok | 7 ok | 8 ok | 9 ok | 10 ref 12 | 11 ref 8 | \
         12 ref 8 | 13 ref 8 | 14 behind | chain 0:7",
    ),
    (
        "finish_by_another",
        "1 ok | 2 ok | 3 ok | 4 ok | 5 entry 0 place 0 | 6 ok | 7 ok | 8 ok | 9 ok | 10 ok | 11 ok | 12 ok | \
         13 ok | 14 ok | 15 ok | 16 ok | 17 entry 1 place 0 | 18 behind | 19 ok | 20 ok | 21 ref 12 | 22 ok | \
         chain 0:1 2:2",
    ),
    (
        "finish_meanwhile",
        "1 ok | 2 ok | 3 ok | 4 ok | 5 ok | 6 ok | 7 ok | 8 ok | 9 ok | 10 ok | 11 ok | 12 ok | 13 ok | \
         14 behind | 15 ref 8 | 16 ok | 17 was | chain",
    ),
    (
        "finish_fetched_open",
        "1 ok | 2 ok | 3 ok | 4 ok | 5 ok | 6 ok | 7 ok | 8 ok | 9 ok | 10 ok | 11 ok | 12 behind | 13 ok | \
         14 ok | 15 ok | 16 behind | chain",
    ),
    (
        "finish_owner",
        "1 ok | 2 ok | 3 ok | 4 ok | 5 entry 0 place 0 | 6 ok | 7 ok | 8 ok | 9 ok | 10 ref 12 | 11 behind | \
         12 ref 7 | 13 ok | chain 0:1",
    ),
    ("ref_7_before_11", "1 ref 7 | 2 ref 7 | 3 ref 7 | chain"),
    ("ref_8_before_11", "1 ok | 2 ref 8 | 3 ok | 4 ref 8 | 5 ok | 6 ref 8 | 7 ref 8 | chain"),
    (
        "ref_11_before_12",
        "1 ok | 2 ok | 3 ok | 4 ok | 5 entry 0 place 0 | 6 ok | 7 ok | 8 ok | 9 ok | 10 ok | 11 ref 11 | 12 \
         ref 12 | chain 0:1",
    ),
    (
        "ref_12",
        "1 ok | 2 ok | 3 ok | 4 ok | 5 ok | 6 ok | 7 ok | 8 entry 0 place 0 | 9 ok | 10 ok | 11 ref 12 | 12 \
         ref 12 | chain 0:1",
    ),
    (
        "ref_12_others_wrote",
        "1 ok | 2 ok | 3 ok | 4 ok | 5 entry 0 place 0 | 6 ok | 7 ok | 8 ok | 9 ok | 10 ok | 11 ok | 12 ok | \
         13 entry 1 place 0 | 14 ref 12 | 15 entry 2 place 1 | 16 ref 12 | chain 0:1 1:2 1:4",
    ),
    ("close_own_empty", "1 ok | 2 ok | 3 ok | 4 ok | 5 ok | 6 ref 8 | 7 ref 8 | 8 ref 8 | chain"),
    (
        "close_own_empty_second_ledger",
        "1 ok | 2 ok | 3 ok | 4 ok | 5 entry 0 place 0 | 6 ok | 7 ok | 8 ok | 9 ok | 10 ref 8 | 11 ref 8 | chain 0:1",
    ),
    (
        "close_own_empty_after_handover",
        "1 ok | 2 ok | 3 ok | 4 ok | 5 entry 0 place 0 | 6 ok | 7 ok | 8 ok | 9 ok | 10 ok | 11 ok | 12 ok | \
         13 ok | 14 behind | 15 ref 8 | 16 ref 8 | chain 0:1",
    ),
    ("close_own_empty_no_longer_named", "1 ok | 2 ok | 3 ok | 4 ok | 5 ok | 6 ok | 7 ref 8 | 8 ref 8 | chain"),
    (
        "close_own_empty_while_fetched",
        "1 ok | 2 ok | 3 ok | 4 ok | 5 ok | 6 ok | 7 ok | 8 ok | 9 behind | 10 ref 8 | 11 ref 8 | chain",
    ),
    (
        "total_empty_ledger_closed_between",
        "1 ok | 2 ok | 3 ok | 4 ok | 5 entry 0 place 0 | 6 ok | 7 ok | 8 ok | 9 ok | 10 ok | 11 ok | \
         12 entry 1 place 0 | 13 ok | chain 0:1 0:2",
    ),
    (
        "stale_write_before_fence",
        "1 ok | 2 ok | 3 ok | 4 ok | 5 ok | 6 entry 0 place 0 | 7 ok | 8 entry 1 place 1 | 9 ok | 10 entry 2 \
         place 2 | 11 ok | 12 ok | 13 ref 12 | chain 0:1 0:2 0:3",
    ),
    (
        "stale_close_own",
        "1 ok | 2 ok | 3 ok | 4 ok | 5 entry 0 place 0 | 6 ok | 7 ok | 8 ok | 9 ok | 10 ok | 11 behind | 12 \
         ref 7 | 13 ref 7 | 14 ok | 15 ok | 16 entry 1 place 0 | chain 0:1 1:3",
    ),
    (
        "stale_close_own_empty",
        "1 ok | 2 ok | 3 ok | 4 ok | 5 ok | 6 ok | 7 ok | 8 ok | 9 ok | 10 behind | 11 ref 7 | chain",
    ),
    (
        "append_behind",
        "1 ok | 2 ok | 3 ok | 4 ok | 5 ok | 6 ok | 7 ok | 8 ok | 9 behind | 10 ref 7 | 11 ref 7 | \
         12 entry 0 place 0 | chain 1:2",
    ),
    (
        "close_last_behind",
        "1 ok | 2 ok | 3 ok | 4 ok | 5 entry 0 place 0 | 6 ok | 7 ok | 8 ok | 9 ok | 10 ok | 11 ok | 12 ok | \
         13 ok | 14 behind | 15 ref 8 | 16 ref 8 | 17 ok | 18 was | 19 ok | 20 ok | 21 entry 1 place 0 | \
         chain 0:1 2:2",
    ),
    (
        "close_last_behind_not_fenced",
        "1 ok | 2 ok | 3 ok | 4 ok | 5 entry 0 place 0 | 6 ok | 7 ok | 8 ok | 9 ok | 10 behind | 11 ok | 12 \
         ok | 13 entry 1 place 0 | 14 ok | 15 ok | 16 ok | 17 ref 12 | chain 0:1 0:2",
    ),
    (
        "close_last_was_list_moved",
        "1 ok | 2 ok | 3 ok | 4 ok | 5 entry 0 place 0 | 6 ok | 7 ok | 8 ok | 9 ok | 10 ok | 11 ok | 12 ok | \
         13 ok | 14 was | 15 ok | 16 behind | 17 ok | 18 ok | 19 ok | 20 ok | 21 ok | 22 ok | 23 entry 1 \
         place 0 | 24 ref 12 | chain 0:1 1:2",
    ),
    (
        "close_last_behind_other_writes",
        "1 ok | 2 ok | 3 ok | 4 ok | 5 entry 0 place 0 | 6 ok | 7 ok | 8 ok | 9 ok | 10 ok | 11 ok | 12 ok | \
         13 ok | 14 ok | 15 ok | 16 behind | 17 entry 1 place 0 | 18 ok | 19 entry 2 place 1 | chain 0:1 2:2 \
         2:3",
    ),
    (
        "three_race",
        "1 ok | 2 ok | 3 ok | 4 ok | 5 ok | 6 ok | 7 ok | 8 ok | 9 ok | 10 ok | 11 ok | 12 ok | 13 behind | \
         14 behind | 15 entry 0 place 0 | 16 ref 7 | 17 ref 7 | chain 1:1",
    ),
    (
        "gap_second_appends_first",
        "1 ok | 2 ok | 3 ok | 4 ok | 5 ok | 6 ok | 7 ok | 8 ok | 9 entry 0 place 0 | 10 behind | 11 ok | \
         12 ok | 13 ok | 14 entry 1 place 0 | chain 1:5 1:6",
    ),
    (
        "abdicate_return_empty_list",
        "1 ok | 2 ok | 3 ok | 4 ok | 5 ok | 6 ok | 7 ok | 8 ref 8 | 9 ok | 10 ref 8 | 11 ok | 12 ok | \
         13 entry 0 place 0 | chain 0:1",
    ),
    (
        "abdicate_return_old_memory",
        "1 ok | 2 ok | 3 ok | 4 ok | 5 entry 0 place 0 | 6 ok | 7 ok | 8 ok | 9 ok | 10 ref 8 | 11 ref 8 | 12 \
         ok | 13 ref 8 | 14 ok | 15 ok | 16 ok | 17 ok | 18 entry 1 place 0 | chain 0:1 0:3",
    ),
    (
        "own_close_no_fetch",
        "1 ok | 2 ok | 3 ok | 4 ok | 5 entry 0 place 0 | 6 ok | 7 ok | 8 ok | 9 entry 1 place 0 | 10 ok | \
         11 ok | 12 ok | 13 entry 2 place 0 | 14 entry 3 place 1 | 15 ok | chain 0:1 0:2 0:3 0:4",
    ),
    (
        "own_close_other_appends",
        "1 ok | 2 ok | 3 ok | 4 ok | 5 entry 0 place 0 | 6 ok | 7 ok | 8 ok | 9 ok | 10 was | 11 ok | 12 ok | \
         13 ok | 14 behind | 15 entry 1 place 0 | 16 ok | 17 ok | chain 0:1 1:2",
    ),
    (
        "chain_same_value",
        "1 ok | 2 ok | 3 ok | 4 ok | 5 entry 0 place 0 | 6 entry 1 place 1 | 7 entry 2 place 2 | 8 ok | 9 ok | \
         10 ok | 11 ok | 12 ok | 13 ok | 14 ok | 15 entry 3 place 0 | 16 entry 4 place 1 | chain 0:1 0:1 \
         0:1 1:1 1:1",
    ),
    ("bytes_16384", "1 ok | 2 bad line | 3 ok | chain"),
    ("bytes_16384_unended", "1 ok | 2 bad line | 3 bad line | chain"),
    ("bytes_16384_bad_start", "bad start"),
    ("bytes_16385", "too long"),
    ("bytes_16385_bad_start", "too long"),
];

/// Examples for teaching with their whole outputs, as above, and their run totals.
const TAUGHT: &[(&str, &str, &str)] = &[
    (
        "teaching_handover",
        "1 ok | 2 ok | 3 ok | 4 ok | 5 entry 0 place 0 | 6 entry 1 place 1 | 7 ok | 8 ok | 9 ok | 10 ok | 11 ok | 12 ok | \
         13 ok | 14 ok | 15 entry 2 place 0 | chain 0:101 0:102 1:103",
        "ledger 1 entries 2 sum 0.000000000203 | ledger 2 entries 1 sum 0.000000000103 | total 0.000000000306 | \
         rounded 0.000",
    ),
    (
        "teaching_stale_leader",
        "1 ok | 2 ok | 3 ok | 4 ok | 5 entry 0 place 0 | 6 ok | 7 ok | 8 ok | 9 entry 1 place 1 | 10 ok | 11 ref 12 | 12 ok | \
         13 ok | 14 ok | 15 entry 2 place 0 | 16 ref 12 | 17 behind | 18 ref 7 | chain 0:201 0:202 1:203",
        "ledger 1 entries 2 sum 0.000000000403 | ledger 2 entries 1 sum 0.000000000203 | total 0.000000000606 | \
         rounded 0.000",
    ),
    (
        "teaching_dead_leader",
        "1 ok | 2 ok | 3 ok | 4 ok | 5 entry 0 place 0 | 6 entry 1 place 1 | 7 ok | 8 ok | 9 ok | 10 ok | 11 ref 12 | 12 ok | \
         13 ok | 14 ok | 15 ok | 16 ok | 17 ok | 18 ok | 19 entry 2 place 0 | 20 behind | chain 0:301 0:302 2:303",
        "ledger 1 entries 2 sum 0.000000000603 | ledger 2 entries 1 sum 0.000000000303 | total 0.000000000906 | \
         rounded 0.000",
    ),
];

/// Inputs with long outputs, the last lines of those, and what stands after `chain`.
fn ends() -> Vec<(&'static str, &'static str, String)> {
    vec![
        (
            "ledgers_255_own",
            "1021 entry 254 place 0 | 1022 ok | 1023 ref 10 | 1024 ref 8 | 1025 ref 8 | 1026 ref 8 | chain",
            " 0:1".repeat(255),
        ),
        (
            "ledger_255_alone",
            "1526 ok | 1527 ok | 1528 ok | 1529 entry 0 place 0 | 1530 entry 1 place 1 | 1531 ok | \
             1532 ref 10 | 1533 ok | 1534 ok | 1535 ok | 1536 was | 1537 ref 10 | chain",
            " 0:5 0:6".into(),
        ),
        (
            "ledger_255_order_of_10",
            "1526 ok | 1527 ok | 1528 ref 8 | 1529 ok | 1530 ref 8 | 1531 ref 7 | 1532 ref 3 | \
             1533 entry 0 place 0 | 1534 ok | 1535 ref 10 | 1536 ok | 1537 ok | 1538 ref 8 | 1539 ok | \
             1540 ref 8 | 1541 was | 1542 ref 10 | chain",
            " 0:5".into(),
        ),
        (
            "ledgers_254_behind_by_254",
            "1021 entry 253 place 0 | 1022 behind | 1023 entry 254 place 1 | 1024 ok | 1025 ref 10 | chain",
            " 0:1".repeat(254) + " 0:2",
        ),
        (
            "ledgers_254_race",
            "1013 entry 252 place 0 | 1014 ok | 1015 ok | 1016 ok | 1017 ok | 1018 was | 1019 ok | 1020 ok | \
             1021 ok | 1022 behind | 1023 entry 253 place 0 | 1024 ok | 1025 ref 10 | chain",
            " 0:1".repeat(253) + " 1:2",
        ),
        ("bytes_16384_empty_lines", "16380 bad line | 16381 bad line | 16382 bad line | chain", String::new()),
        (
            "bytes_16384_writes",
            "2730 entry 2725 place 2725 | 2731 entry 2726 place 2726 | 2732 ok | chain",
            " 0:0".repeat(2727),
        ),
    ]
}

fn written_out(short: &str) -> String {
    short.split(" | ").map(|line| format!("{line}\n")).collect()
}

fn transcript_of(name: &str) -> String {
    transcript(&input(name).unwrap())
}

#[test]
fn whole_outputs() {
    for (name, short) in WHOLE {
        assert_eq!(transcript_of(name), written_out(short), "{name}");
    }
}

#[test]
fn taught_sessions() {
    for (name, short, total) in TAUGHT {
        let input = std::fs::read(root().join(format!("examples/{name}.session"))).unwrap();
        assert_eq!(transcript(&input), written_out(short), "{name}");
        assert_eq!(expected::total::output(&input), written_out(total), "{name}");
    }
}

#[test]
fn ends_of_outputs() {
    for (name, short, chain) in ends() {
        let end = written_out(&format!("{short}{chain}"));
        assert!(transcript_of(name).ends_with(&format!("\n{end}")), "{name}");
    }
}

// One byte a line is the shortest line there is, and "bad line" is the longest answer to it.
#[test]
fn longest_output() {
    let digits = 9 + 90 * 2 + 900 * 3 + 9000 * 4 + 6383 * 5;
    let longest = transcript_of("bytes_16384_empty_lines").len();
    assert_eq!(longest, digits + 16382 * 10 + 6);
    for name in expected::files::input_names().unwrap() {
        assert!(transcript_of(&name).len() <= longest, "{name}");
    }
}

// Each of these inputs has one bad line or write before good ones, which are answered as if it weren't there.
#[test]
fn one_bad_form_a_file() {
    let write = WHOLE.iter().find(|(name, _)| *name == "value_missing").unwrap().1;
    let mut tried = 0;
    for name in expected::files::input_names().unwrap() {
        let text = input(&name).unwrap();
        let lines = text.iter().filter(|&&byte| byte == b'\n').count();
        let expected = if name.starts_with("bad_start_") {
            "bad start"
        } else if name.starts_with("line_") && lines == 3 && text.ends_with(b"\nB 0\n") {
            "1 bad line | 2 ok | chain"
        } else if name.starts_with("value_") && text.starts_with(b"2\n") {
            write
        } else {
            continue;
        };
        tried += 1;
        assert_eq!(transcript(&text), written_out(expected), "{name}");
    }
    assert_eq!(tried, 25 + 44 + 30);
}
