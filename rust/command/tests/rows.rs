//! What is stored with each row, and its uses: batches, processes, witnesses, upgrades, wrong answers.

mod support;

use std::fs;
use std::io::Write;
use std::time::{Duration, Instant};
use store::database::{Database, Mode};
use support::{Folder, Stepper};

const LEADS: [&str; 4] = ["B 0", "F 0", "C 0", "P 0"];

fn number(folder: &Folder, select: &str) -> i64 {
    let database = Database::open(&folder.path("run.log"), Mode::Existing, Duration::from_secs(10)).unwrap();
    database.number(select).unwrap().unwrap()
}

// The lines that are ready are one request, up to 256, and answered in their order; bad ones are among them.
#[test]
fn lines_that_are_ready() {
    let folder = Folder::with_log(1);
    folder.steps(&LEADS);
    let mut lines: Vec<String> = (0..700).map(|value| format!("W 0 {value}")).collect();
    lines[3] = "w 0 3".into();
    lines[300] = "F 0".into();
    fs::write(folder.path("lines"), lines.join("\n") + "\n").unwrap();
    let ended = support::ended(folder.shell("exec \"$0\" step run.log <lines").spawn().unwrap());
    assert_eq!((ended.status, ended.errors.as_str()), (Some(0), ""));
    let mut entry = 0;
    for (place, (reply, line)) in ended.output.lines().zip(&lines).enumerate() {
        let wanted = match line.as_bytes()[0] {
            b'w' => "bad line".into(),
            b'F' => "ref 8".into(),
            _ => {
                entry += 1;
                format!("entry {0} place {0}", entry - 1)
            }
        };
        assert_eq!(reply, format!("{} {wanted}", place + 1));
    }
    assert_eq!(entry, 698);
    // The bad line has no row, and the refused one has: of 700 lines and the four before, in four requests.
    assert_eq!(number(&folder, "SELECT count(*) FROM journal"), 703);
    assert_eq!(number(&folder, "SELECT count(DISTINCT request) FROM journal"), 4);
    assert_eq!(number(&folder, "SELECT max(part) FROM journal"), 255);
    assert_eq!(folder.checked("run.log"), "ok, 703 rows");
}

// A line that comes alone is answered before there is another, though its end comes late.
#[test]
fn a_line_that_comes_alone() {
    let folder = Folder::with_log(1);
    let mut stepper = Stepper::start(&folder);
    for line in LEADS {
        let began = Instant::now();
        assert!(stepper.take(line).ends_with(" ok"));
        assert!(began.elapsed() < Duration::from_secs(5));
    }
    stepper.input.write_all(b"W 0 20").unwrap();
    std::thread::sleep(Duration::from_millis(100));
    assert_eq!(stepper.take("1"), "5 entry 0 place 0");
    stepper.end();
    assert_eq!(number(&folder, "SELECT count(DISTINCT request) FROM journal"), 5);
}

#[test]
fn two_processes_as_one_client() {
    let folder = Folder::with_log(1);
    folder.steps(&LEADS);
    let by = |name: &str| {
        let mut program = folder.program(&["step", "run.log", "W 0 7"]);
        support::ended(program.env("CINDROLF_PROCESS", name).spawn().unwrap())
    };
    by("one");
    by("other");
    assert!(!folder.output(&["show", "run.log"]).contains("warning"));
    by("one");
    let shown = folder.output(&["show", "run.log"]);
    assert!(shown.contains("\nwarning: two processes take turns as client 0: one and other\n"), "{shown}");
    let long = by(&"x".repeat(101));
    let said = "cindrolf: CINDROLF_PROCESS: the name of a process has at most 100 bytes\n";
    assert_eq!((long.status, long.errors.as_str()), (Some(2), said));
}

#[test]
fn a_witness() {
    let folder = Folder::with_log(1);
    let step = |line: &str| folder.run(&["step", "--witness", "kept", "run.log", line]);
    folder.steps(&LEADS);
    folder.copy_one("run.log", "backup.log");
    assert_eq!(step("W 0 7").output, "1 entry 0 place 0\n");
    let kept = fs::read_to_string(folder.path("kept")).unwrap();
    assert!(kept.lines().any(|line| line.trim_end() == folder.last_row("run.log")), "{kept}");
    assert_eq!(step("W 0 8").output, "1 entry 1 place 1\n");
    fs::rename(folder.path("backup.log"), folder.path("run.log")).unwrap();
    let lost = step("W 0 9");
    let said = "cindrolf: run.log: the log is not the one that the witness knows: it ends at row 4, and the rows up \
                to 6 are missing\n";
    assert_eq!((lost.status, lost.output.as_str(), lost.errors.as_str()), (Some(1), "", said));
    assert_eq!(folder.checked("run.log"), "ok, 4 rows");
}

#[test]
fn an_earlier_version() {
    let folder = Folder::new();
    support::old("kinds.db", &folder.path("run.log"));
    let before = fs::read(folder.path("run.log")).unwrap();
    assert_eq!(folder.checked("run.log"), "ok, 24 rows");
    assert!(folder.output(&["total", "run.log"]).contains("\ntotal 0.100010000538\n"));
    assert!(folder.output(&["chain", "run.log"]).starts_with("chain 0:0 0:1000003 "));
    let old =
        "it was made by an earlier version, and can only be read: 'cindrolf upgrade OLD NEW' makes a new file of it";
    let said = format!("cindrolf: run.log: line 1, N 0: not stored: {old}\n");
    assert_eq!(folder.failure(1, &["step", "run.log", "N 0"]), said);
    assert_eq!(folder.failure(1, &["mark", "run.log", "new"]), format!("cindrolf: run.log: {old}\n"));
    folder.quiet(&["upgrade", "run.log", "new.log"]);
    assert!(fs::read(folder.path("run.log")).unwrap() == before);
    for command in ["total", "chain", "show", "check"] {
        let (one, other) = (folder.output(&[command, "run.log"]), folder.output(&[command, "new.log"]));
        assert_eq!(one.replace("run.log", "new.log"), other, "{command}");
    }
    assert_eq!(folder.output(&["step", "new.log", "N 0"]), "1 ok\n");
    let exists = "cindrolf: new.log: there is a file of this name already\n";
    assert_eq!(folder.failure(1, &["upgrade", "run.log", "new.log"]), exists);
    let new = "cindrolf: new.log: it is of this version already: 'cindrolf copy' makes a copy of it\n";
    assert_eq!(folder.failure(1, &["upgrade", "new.log", "third.log"]), new);
    assert!(!folder.path("third.log").exists());
}

// A process that stores a lie about its own step: everybody is warned, and nobody stopped.
#[test]
fn a_wrong_answer() {
    let folder = Folder::with_log(1);
    folder.steps(&LEADS);
    let database = Database::open(&folder.path("run.log"), Mode::Existing, Duration::from_secs(10)).unwrap();
    let trigger =
        database.text("SELECT sql FROM sqlite_schema WHERE name = 'journal_is_not_changed'").unwrap().unwrap();
    for statement in ["DROP TRIGGER journal_is_not_changed", "UPDATE journal SET answer = 268 WHERE seq = 2", &trigger]
    {
        database.execute(statement).unwrap();
    }
    drop(database);
    let wrong = "row 2 of lab1 cindrolf[812] has the answer 'ref 12', and the log gives 'ok'";
    let stepped = folder.run(&["step", "run.log", "W 0 7"]);
    assert_eq!(stepped.output, "1 entry 0 place 0\n");
    assert_eq!((stepped.status, stepped.errors), (Some(0), format!("cindrolf: warning: run.log: {wrong}\n")));
    let checked = folder.run(&["check", "run.log"]);
    let found = format!("the log is whole, and answers stored in it are wrong, 5 rows\n{wrong}\nlast row ");
    assert!(checked.output.starts_with(&found), "{}", checked.output);
    assert_eq!((checked.status, checked.errors.as_str()), (Some(1), ""));
    let as_json = folder.run(&["check", "--json", "run.log"]);
    let answer = r#"{"row": 2, "process": "lab1 cindrolf[812]", "stored": "ref 12", "replayed": "ok"}"#;
    assert_eq!((as_json.status, as_json.errors.as_str()), (Some(1), ""));
    assert!(as_json.output.contains(&format!("\"wrong_answers\": [{answer}]")), "{}", as_json.output);
    assert!(as_json.output.contains("\"ok\": false, \"rows\": 5"), "{}", as_json.output);
}

// What is still being written to a pipe is not waited for.
#[test]
fn an_answer_before_the_next_line() {
    let folder = Folder::with_log(2);
    let mut stepper = Stepper::start(&folder);
    stepper.input.write_all(b"N 1\nN 0\nN 1\n").unwrap();
    let replies: Vec<String> = stepper.replies.by_ref().take(3).map(Result::unwrap).collect();
    assert_eq!(replies, ["1 ok", "2 ok", "3 ok"]);
    stepper.end();
}
