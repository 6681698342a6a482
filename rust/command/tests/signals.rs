//! Signals that end a step, and what they leave: one file.

mod support;

use std::io::Write;
use std::os::unix::process::ExitStatusExt;
use std::time::{Duration, Instant};
use support::{Folder, SIGHUP, SIGINT, SIGTERM, Stepper, ended, send};

/// A process that has taken so many steps, each answered.
fn stepped(folder: &Folder, count: u64) -> Stepper {
    let mut stepper = Stepper::start(folder);
    for line in ["B 0", "F 0", "C 0", "P 0"] {
        assert!(stepper.take(line).ends_with(" ok"));
    }
    for value in 4..count {
        assert!(stepper.take(&format!("W 0 {value}")).contains(" entry "));
    }
    stepper
}

// Ctrl-C, and then the file is put on a stick.
#[test]
fn a_signal_leaves_one_file() {
    for signal in [SIGINT, SIGTERM, SIGHUP] {
        let folder = Folder::with_log(1);
        let mut stepper = stepped(&folder, 304);
        // Part of a line is no step.
        stepper.input.write_all(b"W 0 7").unwrap();
        send(&stepper.child, signal);
        // It ends by the signal, as a shell expects, while its input is still open.
        assert_eq!(stepper.child.wait().unwrap().signal(), Some(signal));
        assert!(stepper.replies.next().is_none());
        folder.copy_one("run.log", "stick.log");
        assert_eq!(folder.names(), ["run.log", "stick.log"]);
        assert_eq!(folder.checked("stick.log"), "ok, 304 rows");
    }
}

// Whatever it is doing: each step that is stored was answered, and no other.
#[test]
fn a_signal_between_steps() {
    for round in 0..6 {
        let folder = Folder::with_log(1);
        let Stepper { mut child, mut input, mut replies } = stepped(&folder, 4);
        let lines: String = (0..3000).map(|value| format!("W 0 {value}\n")).collect();
        let feeder = std::thread::spawn(move || drop(input.write_all(lines.as_bytes())));
        let first = 10 + 7 * round;
        (0..first).for_each(|_| drop(replies.next().unwrap().unwrap()));
        send(&child, SIGTERM);
        let answered = first + replies.count();
        assert_eq!(child.wait().unwrap().signal(), Some(SIGTERM));
        feeder.join().unwrap();
        assert!(answered < 3000);
        folder.copy_one("run.log", "stick.log");
        assert_eq!(folder.checked("stick.log"), format!("ok, {} rows", 4 + answered));
    }
}

// While another process uses the log it stays three files, and the check says so.
#[test]
fn one_file_or_three() {
    let folder = Folder::with_log(1);
    let (mut one, other) = (stepped(&folder, 30), Stepper::start(&folder));
    let three = "three files: run.log, run.log-wal and run.log-shm; to copy the log, use 'cindrolf copy run.log TO'";
    assert_eq!(folder.output(&["check", "run.log"]).lines().last(), Some(three));
    send(&one.child, SIGINT);
    one.child.wait().unwrap();
    assert_eq!(folder.names(), ["run.log", "run.log-shm", "run.log-wal"]);
    other.end();
    let last = "one file: to copy the log, copy run.log";
    assert_eq!(folder.output(&["check", "run.log"]).lines().last(), Some(last));
}

// What waits for its next line for long has every step in the file itself.
#[test]
fn an_idle_process() {
    let folder = Folder::with_log(1);
    let mut stepper = stepped(&folder, 50);
    let until = Instant::now() + Duration::from_secs(30);
    let copied = || {
        folder.copy_one("run.log", "stick.log");
        folder.checked("stick.log") == "ok, 50 rows"
    };
    while !copied() {
        assert!(Instant::now() < until, "it has copied nothing back");
        std::thread::sleep(Duration::from_millis(200));
    }
    // It goes on, also in the middle of a line.
    stepper.input.write_all(b"W 0").unwrap();
    std::thread::sleep(Duration::from_millis(1500));
    assert_eq!(stepper.take(" 8"), "51 entry 46 place 46");
    stepper.end();
    assert_eq!(folder.checked("run.log"), "ok, 51 rows");
}

// Who starts it with a signal ignored, as nohup does, wants it to go on.
#[test]
fn an_ignored_signal() {
    let folder = Folder::with_log(1);
    let mut stepper = Stepper::of(folder.shell("trap '' HUP; exec \"$0\" step run.log"));
    assert_eq!(stepper.take("B 0"), "1 ok");
    send(&stepper.child, SIGHUP);
    assert_eq!(stepper.take("F 0"), "2 ok");
    stepper.end();
}

// The steps of arguments end as well, and are not all taken.
#[test]
fn lines_as_arguments() {
    let folder = Folder::with_log(2);
    let lines = ["N 1", "N 0"].repeat(2500);
    let Stepper { child, replies, .. } = Stepper::of(folder.program(&[&["step", "run.log"], &lines[..]].concat()));
    let mut replies = replies.map(Result::unwrap);
    assert_eq!(replies.next().as_deref(), Some("1 ok"));
    send(&child, SIGINT);
    let answered = 1 + replies.count();
    assert_eq!(ended(child).status, None);
    assert!(answered < 5000);
    assert_eq!(folder.names(), ["run.log"]);
    let rows = if answered == 1 { "ok, 1 row".into() } else { format!("ok, {answered} rows") };
    assert_eq!(folder.checked("run.log"), rows);
}
