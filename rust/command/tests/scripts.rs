//! What scripts read: JSON and CSV, each read by Python and compared with what it should say.

mod support;

use std::fs;
use std::os::unix::ffi::OsStrExt;
use std::path::Path;
use std::process::Command;
use store_tests::skipped::skipped;
use support::reads::{self, Read, TO_WRITING};
use support::{Ended, Folder, PROCESS, ended};

/// Whether Python is there; else the test is skipped.
fn has_python(test: &str) -> bool {
    let found = Command::new("python3").args(["-c", "import csv, json"]).status().is_ok_and(|status| status.success());
    if !found {
        skipped(test, "there is no command python3; Debian has it in the package python3");
    }
    found
}

/// What Python makes of a text, by an expression over `text`.
fn python(expression: &str, text: &str) -> String {
    let program = format!("import csv, io, json, sys\ntext = sys.argv[1]\nprint({expression})");
    let output = Command::new("python3").args(["-c", &program, text]).output().unwrap();
    assert!(output.status.success(), "{text}: {}", String::from_utf8_lossy(&output.stderr));
    String::from_utf8(output.stdout).unwrap()
}

/// That a text is one line of JSON, and what Python reads of it the same as of the other one.
fn is_json(text: &str, expected: &str) {
    assert!(text.ends_with("}\n") && text.lines().count() == 1 && text.is_ascii(), "{text}");
    let sorted = "json.dumps(json.loads(text), sort_keys=True)";
    assert_eq!(python(sorted, text), python(sorted, expected));
}

/// Client 0 has written 1.5 and 0.25; client 1 is named, and has fenced its ledger, which has a mark.
fn fenced() -> Folder {
    let folder = Folder::new();
    folder.quiet(&["create", "--small", "run.log", "2"]);
    folder.steps(&[&TO_WRITING[..], &["W 0 1500000000000", "W 0 250000000000"]].concat());
    folder.quiet(&["mark", "run.log", "a \"b\""]);
    folder.steps(&["N 1", "B 1", "F 1", "L 1"]);
    folder.quiet(&["revoke", "run.log", "1", "O"]);
    folder
}

#[test]
fn show_and_marks() {
    if !has_python("show_and_marks") {
        return;
    }
    let folder = fenced();
    let marks = r#"[{"name": "a \"b\"", "entries": 2}]"#;
    let shown = format!(
        r#"{{"file": "run.log", "entries": 2, "capacity": 512, "ledgers_created": 1, "named_leader": 1,
            "last_row": "{row}", "not_listed": [], "marks": {marks},
            "ledgers": [{{"ledger": 1, "state": "fenced, recovering", "entries": 2, "sum": "1.750000000000"}}],
            "clients": [
                {{"client": 0, "named": false, "leads": true, "stage": "writing", "ledger": 1, "entries": 2,
                  "lacks": [], "process": "{PROCESS}", "other_process": null}},
                {{"client": 1, "named": true, "leads": true, "stage": "finishing", "ledger": 1, "entries": 0,
                  "lacks": ["O"], "process": "{PROCESS}", "other_process": null}}]}}"#,
        row = folder.last_row("run.log")
    );
    is_json(&folder.output(&["show", "--json", "run.log"]), &shown);
    is_json(&folder.output(&["mark", "--json", "run.log"]), &format!(r#"{{"marks": {marks}}}"#));
    folder.steps(&["K 1", "C 1"]);
    let shown = folder.output(&["show", "--json", "run.log"]);
    assert_eq!(python("json.loads(text)['not_listed']", &shown), "[2]\n");
    let fresh = Folder::with_log(1);
    let shown = fresh.output(&["show", "--json", "run.log"]);
    let client = "[json.loads(text)[name] for name in ('ledgers', 'marks')], [json.loads(text)['clients'][0][name] for name in ('ledger', 'process')]";
    assert_eq!(python(client, &shown), "[[], []] [None, None]\n");
}

#[test]
fn advice_windows_forecasts_and_totals() {
    if !has_python("advice_windows_forecasts_and_totals") {
        return;
    }
    let folder = fenced();
    let json = |args: &[&str], expected: &str| is_json(&folder.output(args), expected);
    json(&["advise", "--json", "run.log", "1"], r#"{"client": 1, "letter": "K", "step": "finish", "named_leader": 1}"#);
    folder.quiet(&["create", "idle.log", "2"]);
    json(&["advise", "idle.log", "1", "--json"], r#"{"client": 1, "letter": null, "step": null, "named_leader": 0}"#);
    let window = r#"{"found": true, "start": 0, "sum": "1.750000000000", "client": 0, "ledger": 1, "place": 0}"#;
    json(&["window", "--json", "run.log", "2", "0.010"], window);
    json(&["window", "--json", "run.log", "2", "1.75"], r#"{"found": false}"#);
    fs::write(folder.path("a.plan"), "K 1\nC 1\nP 1\nW 1 7\nW 0 7\n").unwrap();
    let counts = r#"{"steps": 5, "entries": 1, "ledgers": 1, "refusals": 1}"#;
    json(&["forecast", "--json", "run.log", "a.plan"], counts);
    json(&["plan", "--json", "run.log", "a.plan"], counts);
    let ledgers = r#"[{"ledger": 1, "entries": 2, "sum": "1.750000000000"}, {"ledger": 2, "entries": 1, "sum": "0.000000000007"}]"#;
    let total = r#""total": "1.750000000007", "rounded": "1.750""#;
    let one = format!(r#"{{"file": "run.log", "ledgers": {ledgers}, {total}}}"#);
    json(&["total", "--json", "run.log"], &format!(r#"{{"logs": [{one}], {total}}}"#));
    let idle = r#"{"file": "idle.log", "ledgers": [], "total": "0.000000000000", "rounded": "0.000"}"#;
    json(&["total", "--json", "run.log", "idle.log"], &format!(r#"{{"logs": [{one}, {idle}], {total}}}"#));
}

#[test]
fn checks() {
    if !has_python("checks") {
        return;
    }
    let folder = fenced();
    let row = folder.last_row("run.log");
    let checked = format!(
        r#"{{"file": "run.log", "ok": true, "rows": 12, "last_row": "{row}", "wrong_answers": [], "files": "one"}}"#
    );
    is_json(&folder.output(&["check", "--json", "run.log"]), &checked);
    is_json(&folder.output(&["check", "--json", "--at", &row, "run.log"]), &checked);
    let other = row.replace("12:", "13:");
    assert!(folder.failure(1, &["check", "--json", "--at", &other, "run.log"]).contains("the log is damaged"));
}

// Quotes, control bytes, letters of other scripts, and bytes that are no text.
#[test]
fn names_of_any_bytes() {
    if !has_python("names_of_any_bytes") {
        return;
    }
    let folder = fenced();
    for (name, read) in [
        (&b"a \"b\" \\ c.log"[..], "a \"b\" \\ c.log"),
        (b"tab\tline\nbell\x07.log", "tab\tline\nbell\x07.log"),
        ("größe \u{1f600}.log".as_bytes(), "größe \u{1f600}.log"),
        (b"no text \xff\xfe.log", "no text \\xff\\xfe.log"),
    ] {
        let path = Path::new(std::ffi::OsStr::from_bytes(name));
        fs::copy(folder.path("run.log"), folder.path(".").join(path)).unwrap();
        for command in ["show", "check", "total"] {
            let end: Ended = ended(folder.program(&[command, "--json"]).arg(path).spawn().unwrap());
            assert_eq!((end.status, end.errors.as_str()), (Some(0), ""));
            let file =
                if command == "total" { "json.loads(text)['logs'][0]['file']" } else { "json.loads(text)['file']" };
            assert_eq!(python(file, &end.output), format!("{read}\n"), "{command}");
        }
    }
}

// The names of reads have commas and quotes.
#[test]
fn tables_with_commas() {
    if !has_python("tables_with_commas") {
        return;
    }
    let folder = fenced();
    folder.steps(&["K 1", "C 1", "P 1"]);
    let written = [Read::new("a,b", &[10, 20]), Read::new("say:\"x\"", &[30])];
    fs::write(folder.path("reads.fastq"), reads::fastq(&written)).unwrap();
    folder.output(&["write", "--fastq", "reads.fastq", "run.log", "1"]);
    let rows = "json.dumps([row for row in csv.reader(io.StringIO(text))])";
    let chain = folder.output(&["chain", "--csv", "run.log"]);
    let without_times = "json.dumps([row[:5] + row[6:] for row in csv.reader(io.StringIO(text))])";
    let expected = r#"[["position", "ledger", "place", "client", "value", "note"], ["0", "1", "0", "0", "1500000000000", ""], ["1", "1", "1", "0", "250000000000", ""], ["2", "2", "0", "1", "110000000000", "a,b"], ["3", "2", "1", "1", "1000000000", "say:\"x\""]]"#;
    assert_eq!(python(without_times, &chain).trim_end(), expected);
    let times = "all(row[5][:2] == '20' and row[5][10] == 'T' and row[5][-1] == 'Z' and len(row[5]) == 27 for row in list(csv.reader(io.StringIO(text)))[1:])";
    assert_eq!(python(times, &chain), "True\n");
    let at_mark = folder.output(&["chain", "--csv", "--at", "a \"b\"", "run.log"]);
    assert!(chain.starts_with(&at_mark) && at_mark.lines().count() == 3, "{at_mark}");
    let steps = folder.output(&["steps", "--csv", "run.log"]);
    let without_times = rows.replace("[row for", "[row[:1] + row[2:] for");
    let steps = python(&without_times, &steps);
    let fields =
        |row: &str| format!("[{}]", row.split('|').map(|field| format!("\"{field}\"")).collect::<Vec<_>>().join(", "));
    for row in [
        "row|process|letter|step|client|input|reply|value|note",
        &format!("1|{PROCESS}|B|become|0||ok||"),
        &format!("5|{PROCESS}|W|write|0|1500000000000|entry 0 place 0|1500000000000|"),
        &format!("7|{PROCESS}||set mark||a \\\"b\\\"|ok||"),
        &format!("12|{PROCESS}||set rights|1|NBAFLKCPW|ok||"),
        &format!("16|{PROCESS}||write scores|1|40 80|entry 2 place 0|110000000000|a,b"),
    ] {
        assert!(steps.contains(&fields(row)), "{row}: {steps}");
    }
    let text = folder.output(&["steps", "run.log"]);
    let lines: Vec<_> = text.lines().collect();
    assert_eq!(
        (lines[0], lines[4], lines[6]),
        ("1 B 0: ok", "5 W 0 1500000000000: entry 0 place 0", "7 mark a \"b\": ok")
    );
    assert_eq!((lines[11], lines[15]), ("12 rights of 1: NBAFLKCPW: ok", "16 W 1 of 2 scores: entry 2 place 0 (a,b)"));
}
