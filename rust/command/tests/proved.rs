//! How the proved programs are started, with stand-ins that print their input.

mod support;

use std::fs;
use std::io::Write;
use std::process::{Command, Stdio};
use support::{Ended, Folder, ended};

/// Runs the installed program by this script, as `$0`.
fn shell(folder: &Folder, script: &str) -> Ended {
    let mut shell = Command::new("sh");
    shell.args(["-c", script]).arg(folder.path("bin/cindrolf")).current_dir(folder.path("."));
    ended(shell.stdin(Stdio::null()).stdout(Stdio::piped()).stderr(Stdio::piped()).spawn().unwrap())
}

fn is(ended: Ended, status: i32, output: &str, errors: &str) {
    assert_eq!((ended.status, ended.output.as_str()), (Some(status), output), "{}", ended.errors);
    assert!(
        if errors.is_empty() { ended.errors.is_empty() } else { ended.errors.contains(errors) },
        "{}",
        ended.errors
    );
}

#[test]
fn a_file_or_standard_input() {
    let folder = Folder::installed();
    fs::write(folder.path("a file"), "2\nB 0\n").unwrap();
    fs::write(folder.path("-b"), "3\n").unwrap();
    for name in ["session", "total"] {
        let given = |input: &str| format!("{name}\n{input}");
        is(shell(&folder, &format!("\"$0\" {name} 'a file'")), 0, &given("2\nB 0\n"), "");
        is(shell(&folder, &format!("\"$0\" {name} <'a file'")), 0, &given("2\nB 0\n"), "");
        is(shell(&folder, &format!("printf 1 | \"$0\" {name}")), 0, &given("1"), "");
        is(shell(&folder, &format!("printf 1 | \"$0\" {name} /dev/stdin")), 0, &given("1"), "");
        is(shell(&folder, &format!("\"$0\" {name} -- -b")), 0, &given("3\n"), "");
        is(shell(&folder, &format!("\"$0\" {name} 'a file' <&-")), 0, &given("2\nB 0\n"), "");
        is(
            shell(&folder, &format!("ln -s \"$0\" {name}; cd /; \"$OLDPWD/{name}\" {name} </dev/null")),
            0,
            &given(""),
            "",
        );
    }
}

#[test]
fn wrong_files() {
    let folder = Folder::installed();
    fs::create_dir(folder.path("folder")).unwrap();
    for name in ["session", "total"] {
        is(shell(&folder, &format!("\"$0\" {name} nowhere")), 2, "", "cindrolf: there is no file nowhere\n");
        is(shell(&folder, &format!("\"$0\" {name} folder")), 2, "", "cindrolf: folder is a folder\n");
        is(shell(&folder, &format!("\"$0\" {name} --nowhere")), 2, "", "there is no option --nowhere\nusage: cindrolf");
        is(shell(&folder, &format!("\"$0\" {name} <&-")), 2, "", "standard input is closed, and no FILE is named");
        is(shell(&folder, &format!("\"$0\" {name} </dev/null >&-")), 2, "", "standard output is closed");
    }
    is(shell(&folder, "\"$0\" session a b"), 2, "", "one FILE, not 2\nusage: cindrolf");
    is(shell(&folder, "\"$0\" total a b"), 2, "", "cindrolf: there is no file a\n");
    is(shell(&folder, "\"$0\" trace run.session >&-"), 2, "", "standard output is closed");
    is(shell(&folder, "\"$0\" create run.db 2 >&-"), 2, "", "standard output is closed");
    assert!(!folder.path("run.db").exists());
}

// What it says on standard error is that it failed, but for a reader of its output that has gone away; else its status counts.
#[test]
fn how_it_ends() {
    let folder = Folder::installed();
    folder.start_instead("session", "echo printed; echo 'it is full' >&2");
    is(shell(&folder, "\"$0\" session </dev/null"), 1, "printed\n", "cindrolf: it is full\n");
    let gone = "echo printed; echo 'Error: Os { code: 32, kind: BrokenPipe, message: \"Broken pipe\" }' >&2; exit 1";
    folder.start_instead("session", gone);
    is(shell(&folder, "\"$0\" session </dev/null"), 1, "printed\n", "");
    folder.start_instead("session", "exit 3");
    is(shell(&folder, "\"$0\" session </dev/null"), 3, "", "");
    folder.start_instead("session", "kill -9 $$");
    is(shell(&folder, "\"$0\" session </dev/null"), 137, "", "");
    fs::remove_file(folder.path("libexec/cindrolf/session")).unwrap();
    is(shell(&folder, "\"$0\" session </dev/null"), 1, "", "libexec/cindrolf/session cannot be started");
}

// A log as a file is read as a log. On standard input its bytes are the proved program's.
#[test]
fn a_log_or_a_session() {
    let folder = Folder::installed();
    folder.quiet(&["create", "run.log", "1"]);
    folder.steps(&["B 0", "F 0", "C 0", "P 0", "W 0 201"]);
    let total = "ledger 1 entries 1 sum 0.000000000201\ntotal 0.000000000201\nrounded 0.000\n";
    is(shell(&folder, "\"$0\" total run.log"), 0, total, "");
    folder.start_instead("total", "head -c 15");
    is(shell(&folder, "\"$0\" total <run.log"), 0, "SQLite format 3", "");
    folder.start_instead("session", "head -c 15");
    is(shell(&folder, "\"$0\" session run.log"), 0, "SQLite format 3", "");
    // One byte less is no log.
    fs::File::create(folder.path("near")).unwrap().write_all(b"SQLite format 3").unwrap();
    is(shell(&folder, "\"$0\" total near"), 0, "SQLite format 3", "");
}
