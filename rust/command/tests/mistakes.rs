//! Wrong arguments, files that are no log, and outputs that go nowhere.

mod support;

use std::fs::{self, File, OpenOptions};
use std::os::unix::fs::FileExt;
use std::process::{Command, Stdio};
use support::{Folder, ended};

#[test]
fn wrong_arguments() {
    let folder = Folder::with_log(2);
    for (args, first, usage) in [
        (&[][..], "there is no subcommand", "usage: cindrolf SUBCOMMAND"),
        (
            &["destroy", "run.log"],
            "there is no subcommand destroy; the closest one is session",
            "usage: cindrolf SUBCOMMAND",
        ),
        (&["--all"], "there is no option --all", "usage: cindrolf SUBCOMMAND"),
        (&["create"], "FILE is missing", "usage: cindrolf create [--small] FILE CLIENTS"),
        (&["create", ""], "FILE is missing", "usage: cindrolf create"),
        (&["create", "new.log"], "CLIENTS is missing", "usage: cindrolf create"),
        (&["create", "new.log", "0"], "CLIENTS is 1 to 16, not '0'", "usage: cindrolf create"),
        (&["create", "new.log", "17"], "CLIENTS is 1 to 16, not '17'", "usage: cindrolf create"),
        (&["create", "new.log", "two"], "CLIENTS is 1 to 16, not 'two'", "usage: cindrolf create"),
        (&["create", "new.log", "2", "3"], "create does not take '3'", "usage: cindrolf create"),
        (&["create", "--large", "new.log", "2"], "there is no option --large", "usage: cindrolf create"),
        (
            &["step", "--small", "run.log"],
            "there is no option --small",
            "usage: cindrolf step [--explain] [--wait SECONDS] [--witness KEPT] FILE [LINE..]",
        ),
        (&["write"], "LOG is missing", "usage: cindrolf write [--resume] [--strict] --fastq READS LOG.. CLIENT"),
        (&["write", "run.log"], "CLIENT is missing", "usage: cindrolf write"),
        (&["write", "run.log", "0"], "VALUE is missing, or --fastq READS, or --scores", "usage: cindrolf write"),
        (
            &["write", "run.log", "0", "x"],
            "VALUE is 0 to 4503599627370495, in units of 10^-12, not 'x'",
            "usage: cindrolf",
        ),
        (
            &["write", "run.log", "0", "7", "4503599627370496"],
            "VALUE is 0 to 4503599627370495",
            "usage: cindrolf write",
        ),
        (&["write", "run.log", "0", "0.5"], "VALUE is 0 to 4503599627370495", "usage: cindrolf write"),
        (&["write", "--fastq", "r", "0"], "CLIENT is missing", "usage: cindrolf write"),
        (&["write", "--fastq", "r", "run.log", "x"], "CLIENT is a number from 0, not 'x'", "usage: cindrolf write"),
        (&["write", "--fastq", "", "run.log", "0"], "--fastq wants a file after it", "usage: cindrolf write"),
        (&["write", "run.log", "0", "--fastq"], "--fastq wants a file after it", "usage: cindrolf write"),
        (
            &["write", "--fastq", "r", "--scores", "run.log", "0"],
            "one of --fastq and --scores",
            "usage: cindrolf write",
        ),
        (&["write", "--resume", "--scores", "run.log", "0"], "--resume goes with --fastq", "usage: cindrolf write"),
        (
            &["write", "--strict", "run.log", "0", "7"],
            "--strict goes with --fastq or --scores",
            "usage: cindrolf write",
        ),
        (&["write", "--fastq", "r", "run.log", "./run.log", "0"], "./run.log is named twice", "usage: cindrolf write"),
        (&["window", "run.log"], "LENGTH is missing", "usage: cindrolf window [--json] LOG LENGTH LIMIT"),
        (&["window", "run.log", "2"], "LIMIT is missing", "usage: cindrolf window"),
        (
            &["window", "run.log", "two", "0.1"],
            "LENGTH is a number of reads, 1 to 256, not 'two'",
            "usage: cindrolf window",
        ),
        (&["window", "run.log", "2", "0.1", "x"], "window does not take 'x'", "usage: cindrolf window"),
        (&["plan", "run.log"], "PLAN is missing", "usage: cindrolf plan [--budget N] [--json] LOG PLAN"),
        (&["forecast", "run.log"], "PLAN is missing", "usage: cindrolf forecast [--budget N] [--json] LOG PLAN"),
        (
            &["plan", "run.log", "p", "--budget", "few"],
            "--budget wants a number of steps, not 'few'",
            "usage: cindrolf plan",
        ),
        (&["plan", "run.log", "p", "--budget"], "--budget wants a number of steps after it", "usage: cindrolf plan"),
        (&["steps", "run.log", "x"], "steps does not take 'x'", "usage: cindrolf steps [--csv] LOG"),
        (
            &["total", "run.log", "./run.log"],
            "./run.log is named twice, and would count twice",
            "usage: cindrolf total",
        ),
        (&["mark", "--json", "run.log", "wash"], "--json goes with the list of marks", "usage: cindrolf mark"),
        (&["show", "run.log", "x"], "show does not take 'x'", "usage: cindrolf show [--json] FILE"),
        (&["chain", "run.log", "--at"], "--at wants a name after it", "usage: cindrolf chain [--at NAME] [--csv] FILE"),
        (&["chain", "--at", "before the wash", "run.log"], "NAME has 1 to 8 bytes", "usage: cindrolf chain"),
        (&["advise", "run.log"], "CLIENT is missing", "usage: cindrolf advise [--json] FILE CLIENT"),
        (&["advise", "run.log", "-1"], "there is no option -1", "usage: cindrolf advise"),
        (&["advise", "run.log", "one"], "CLIENT is a number from 0, not 'one'", "usage: cindrolf advise"),
        (&["mark", "run.log", ""], "NAME has 1 to 8 bytes", "usage: cindrolf mark [--drop] [--json] FILE [NAME]"),
        (&["mark", "--drop", "run.log"], "NAME is missing", "usage: cindrolf mark"),
        (&["grant", "run.log", "0"], "STEP is missing", "usage: cindrolf grant FILE CLIENT STEP"),
        (&["grant", "run.log", "0", "n"], "STEP is one of N B A F L K C P W O, not 'n'", "usage: cindrolf grant"),
        (&["revoke", "run.log", "0", "NB"], "STEP is one of N B A F L K C P W O, not 'NB'", "usage: cindrolf revoke"),
        (&["copy", "run.log"], "TO is missing", "usage: cindrolf copy FILE TO"),
        (&["upgrade", "run.log"], "NEW is missing", "usage: cindrolf upgrade OLD NEW"),
    ] {
        let said = folder.failure(2, args);
        let mut lines = said.lines();
        assert!(lines.next().unwrap().starts_with(&format!("cindrolf: {first}")), "{args:?}: {said}");
        assert!(lines.next().unwrap().starts_with(usage), "{args:?}: {said}");
    }
    assert_eq!(folder.checked("run.log"), "ok, 0 rows");
    assert!(!folder.path("new.log").exists());
}

/// Every command that takes a log and nothing else.
const ON_A_LOG: [&[&str]; 24] = [
    &["step", "FILE"],
    &["step", "FILE", "B 0"],
    &["write", "FILE", "0", "7"],
    &["plan", "FILE", "/dev/null"],
    &["forecast", "FILE", "/dev/null"],
    &["show", "--json", "FILE"],
    &["chain", "--csv", "FILE"],
    &["steps", "FILE"],
    &["steps", "--csv", "FILE"],
    &["window", "FILE", "2", "0.1"],
    &["check", "--json", "FILE"],
    &["advise", "--json", "FILE", "0"],
    &["write", "--resume", "--fastq", "/dev/null", "FILE", "0"],
    &["show", "FILE"],
    &["chain", "FILE"],
    &["advise", "FILE", "0"],
    &["mark", "FILE"],
    &["mark", "FILE", "wash"],
    &["mark", "--drop", "FILE", "wash"],
    &["grant", "FILE", "0", "N"],
    &["revoke", "FILE", "0", "N"],
    &["check", "FILE"],
    &["copy", "FILE", "to.log"],
    &["upgrade", "FILE", "to.log"],
];

/// Every one of them says this of the file, and makes no other.
fn all_fail(folder: &Folder, file: &str, why: &str) {
    for command in ON_A_LOG {
        let args: Vec<_> = command.iter().map(|&word| if word == "FILE" { file } else { word }).collect();
        assert_eq!(folder.failure(1, &args), format!("cindrolf: {file}: {why}\n"), "{args:?}");
    }
    assert!(!folder.path("to.log").exists());
}

#[test]
fn no_such_file() {
    let folder = Folder::new();
    all_fail(&folder, "run.log", "there is no such file");
    all_fail(&folder, "nowhere/run.log", "there is no such file");
    assert!(!folder.path("run.log").exists());
    let nowhere = "cindrolf: nowhere/run.log: there is no folder nowhere\n";
    assert_eq!(folder.failure(1, &["create", "nowhere/run.log", "2"]), nowhere);
}

#[test]
fn files_that_are_no_log() {
    let folder = Folder::new();
    let text = "B 0\n".repeat(500);
    fs::write(folder.path("text"), &text).unwrap();
    all_fail(&folder, "text", "it is no run log of this version: it is no SQLite file");
    fs::create_dir(folder.path("folder")).unwrap();
    all_fail(&folder, "folder", "it is no run log of this version: it is a folder");
    fs::write(folder.path("empty"), "").unwrap();
    all_fail(&folder, "empty", "its creation was not finished; create it again");
    for file in ["text", "folder"] {
        let exists = format!("cindrolf: {file}: there is a file of this name already\n");
        assert_eq!(folder.failure(1, &["create", file, "2"]), exists);
    }
    assert_eq!(fs::read_to_string(folder.path("text")).unwrap(), text);
}

#[test]
fn two_creates() {
    let folder = Folder::with_log(2);
    folder.steps(&["B 0"]);
    let exists = "cindrolf: run.log: there is a file of this name already\n";
    assert_eq!(folder.failure(1, &["create", "run.log", "3"]), exists);
    assert_eq!(folder.checked("run.log"), "ok, 1 row");
    // Of several at once, one makes it.
    let children: Vec<_> = (0..8).map(|_| folder.program(&["create", "new.log", "2"]).spawn().unwrap()).collect();
    let ends: Vec<_> = children.into_iter().map(ended).collect();
    assert_eq!(ends.iter().filter(|end| end.status == Some(0)).count(), 1, "{ends:?}");
    assert_eq!(folder.checked("new.log"), "ok, 0 rows");
}

// One digit of a value, in the only place of the file that has it.
#[test]
fn a_damaged_file() {
    let folder = Folder::with_log(1);
    folder.steps(&["B 0", "F 0", "C 0", "P 0", "W 0 81985529216486"]);
    let path = folder.path("run.log");
    let bytes = fs::read(&path).unwrap();
    // As the input of the write, in six bytes.
    let value = 81_985_529_216_486_u64.to_be_bytes();
    let places: Vec<_> = bytes.windows(6).enumerate().filter(|(_, six)| *six == &value[2..]).map(|at| at.0).collect();
    assert_eq!(places.len(), 1);
    for place in places {
        let file = OpenOptions::new().write(true).open(&path).unwrap();
        file.write_at(&[value[2] ^ 1], place as u64).unwrap();
        let why = "the log is damaged: row 5 of its journal was changed";
        all_fail(&folder, "run.log", why);
        for command in ["total", "trace"] {
            assert_eq!(folder.failure(1, &[command, "run.log"]), format!("cindrolf: run.log: {why}\n"));
        }
        file.write_at(&[value[2]], place as u64).unwrap();
    }
    assert_eq!(folder.checked("run.log"), "ok, 5 rows");
}

#[test]
fn outputs_that_go_nowhere() {
    let folder = Folder::with_log(1);
    for args in [&["show", "run.log"][..], &["--help"], &["check", "run.log"], &["step", "run.log", "B 0"]] {
        let (reader, writer) = std::io::pipe().unwrap();
        drop(reader);
        let end = ended(folder.program(args).stdout(writer).spawn().unwrap());
        assert_eq!((end.status, end.errors.as_str()), (Some(1), ""), "{args:?}");
    }
    let full = || Stdio::from(OpenOptions::new().write(true).open("/dev/full").unwrap());
    let end = ended(folder.program(&["show", "run.log"]).stdout(full()).spawn().unwrap());
    assert_eq!(end.status, Some(1));
    assert!(end.errors.starts_with("cindrolf: standard output: No space left"), "{}", end.errors);
    // The step is stored, so its reply is told.
    let end = ended(folder.program(&["step", "run.log", "F 0", "C 0"]).stdout(full()).spawn().unwrap());
    assert_eq!(end.status, Some(1));
    assert!(end.errors.ends_with("; not printed: 1 ok, 2 ok\n"), "{}", end.errors);
    assert_eq!(folder.output(&["advise", "run.log", "0"]), "P append\n");
}

#[test]
fn an_input_that_cannot_be_read() {
    let folder = Folder::with_log(1);
    let input = File::open(folder.path(".")).unwrap();
    let end = ended(folder.program(&["step", "run.log"]).stdin(input).spawn().unwrap());
    assert_eq!((end.status, end.output.as_str()), (Some(1), ""));
    assert!(end.errors.starts_with("cindrolf: standard input: "), "{}", end.errors);
}

// A limit on the size of files is a full disk: the file that SQLite writes ahead meets it.
#[test]
fn a_full_disk() {
    let folder = Folder::with_log(1);
    folder.steps(&["B 0", "F 0", "C 0", "P 0"]);
    let lines: String = (0..4_000).map(|value| format!("W 0 {value}\n")).collect();
    fs::write(folder.path("lines"), lines).unwrap();
    let script = "trap '' XFSZ; ulimit -f 200; exec \"$0\" step run.log <lines";
    let mut shell = Command::new("sh");
    shell.args(["-c", script, env!("CARGO_BIN_EXE_cindrolf")]).current_dir(folder.path("."));
    let end = ended(shell.stdout(Stdio::piped()).stderr(Stdio::piped()).spawn().unwrap());
    let answered = end.output.lines().count();
    assert_eq!(end.status, Some(1), "{}", end.errors);
    assert!((1..4_000).contains(&answered), "{answered}");
    let last = 4_000.min(answered + 256);
    let line = format!("cindrolf: run.log: lines {} to {last}: not stored: ", answered + 1);
    let unknown = line.replace("not stored", "it is not known whether the step is stored");
    assert!(end.errors.starts_with(&line) || end.errors.starts_with(&unknown), "{}", end.errors);
    let stored = support::values(&folder.output(&["chain", "run.log"]));
    assert!(stored.iter().copied().eq(0..stored.len() as u64), "{stored:?}");
    // All of a request is stored, or nothing.
    let all = end.errors.starts_with(&unknown) && stored.len() == last;
    assert!(stored.len() == answered || all, "{} of {answered}", stored.len());
    assert!(folder.checked("run.log").starts_with("ok, "));
}
