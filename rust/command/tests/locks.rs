//! A lock that another process holds: how long a step waits for it, and what it says about the holder.

mod support;

use std::path::Path;
use std::process::Child;
use std::time::{Duration, Instant};
use store::database::{Database, Mode};
use support::{Folder, SIGCONT, SIGINT, SIGSTOP, Stepper, ended, send};

/// What is said of a step that got no lock.
const HELD: &str = "cindrolf: run.log: line 1, N 1: not stored: another process held the log for longer than this one waits \
                    (SQLite's code 5)";

/// Holds the lock of a log.
fn hold(file: &Path) -> Database {
    let database = Database::open(file, Mode::Existing, Duration::from_secs(10)).unwrap();
    database.execute("BEGIN IMMEDIATE").unwrap();
    database
}

#[test]
fn the_holder_is_named() {
    let folder = Folder::with_log(2);
    let holder = hold(&folder.path("run.log"));
    let process = std::process::id();
    let name = std::fs::read_to_string("/proc/self/comm").unwrap();
    // The name is that of the process's first thread.
    let main = std::fs::read_to_string(format!("/proc/{process}/comm")).unwrap_or(name);
    let named = format!("{HELD}; process {process} ({}) holds it\n", main.trim_end());
    assert_eq!(folder.failure(1, &["step", "--wait", "0", "run.log", "N 1"]), named);
    // Also by another name of the same file.
    std::os::unix::fs::symlink("run.log", folder.path("link.log")).unwrap();
    let by_link = folder.failure(1, &["step", "--wait", "0", "link.log", "N 1"]);
    assert_eq!(by_link, named.replacen("run.log", "link.log", 1));
    drop(holder);
    assert_eq!(folder.output(&["step", "--wait", "0", "run.log", "N 1"]), "1 ok\n");
}

/// A process that waits for its disk is stopped only after that.
fn until_stopped(child: &Child) {
    let until = Instant::now() + Duration::from_secs(30);
    while !std::fs::read_to_string(format!("/proc/{}/stat", child.id())).unwrap().contains(") T ") {
        assert!(Instant::now() < until, "it is not stopped");
        std::thread::sleep(Duration::from_millis(1));
    }
}

// A process that is stopped, and not killed, keeps what it holds.
#[test]
fn a_stopped_process() {
    let folder = Folder::with_log(2);
    let lines = "N 1\nN 0\n".repeat(50_000);
    std::fs::write(folder.path("lines"), lines).unwrap();
    let script = "exec \"$0\" step run.log <lines >/dev/null";
    let mut child = folder.shell(script).spawn().unwrap();
    let stopped = format!("{HELD}; process {} (cindrolf) holds it and is stopped: continue it or end it\n", child.id());
    let said = (0..500).find_map(|_| {
        std::thread::sleep(Duration::from_millis(3));
        send(&child, SIGSTOP);
        until_stopped(&child);
        let end = folder.run(&["step", "--wait", "0", "run.log", "N 1"]);
        let said = end.errors.starts_with(HELD).then_some(end.errors);
        if said.is_none() {
            send(&child, SIGCONT);
        }
        said
    });
    assert_eq!(said, Some(stopped));
    // Who waits long enough gets it when that process goes on.
    let waiting = folder.program(&["step", "--wait", "60", "run.log", "N 1"]).spawn().unwrap();
    std::thread::sleep(Duration::from_millis(300));
    send(&child, SIGCONT);
    // Whom that process names last it does not know.
    let reply = ended(waiting).output;
    assert!(reply == "1 ok\n" || reply == "1 ref 4\n", "{reply}");
    child.kill().unwrap();
    child.wait().unwrap();
}

#[test]
fn how_long_it_waits() {
    let folder = Folder::with_log(2);
    let holder = hold(&folder.path("run.log"));
    let since = Instant::now();
    folder.failure(1, &["step", "--wait", "2", "run.log", "N 1"]);
    let waited = since.elapsed();
    assert!((Duration::from_secs(2)..Duration::from_secs(8)).contains(&waited), "{waited:?}");
    drop(holder);
    for seconds in ["-1", "x", "1.5", "86401", ""] {
        let said = folder.failure(2, &["step", "--wait", seconds, "run.log", "N 1"]);
        assert!(said.starts_with(&format!("cindrolf: SECONDS is 0 to 86400, not '{seconds}'\n")), "{said}");
    }
    assert!(
        folder
            .failure(2, &["step", "run.log", "--wait"])
            .starts_with("cindrolf: --wait wants a number of seconds after it\n")
    );
}

// Who is told to end does not wait for as long as it may.
#[test]
fn a_signal_while_it_waits() {
    let folder = Folder::with_log(2);
    let holder = hold(&folder.path("run.log"));
    let child = Stepper::of(folder.program(&["step", "--wait", "600", "run.log", "N 1"])).child;
    std::thread::sleep(Duration::from_millis(300));
    send(&child, SIGINT);
    let since = Instant::now();
    let end = ended(child);
    assert!(since.elapsed() < Duration::from_secs(30), "{:?}", since.elapsed());
    assert_eq!((end.status, end.output.as_str()), (Some(1), ""));
    assert!(end.errors.starts_with(HELD), "{}", end.errors);
    drop(holder);
    assert_eq!(folder.checked("run.log"), "ok, 0 rows");
}
