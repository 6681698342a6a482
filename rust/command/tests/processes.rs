//! Many processes on one log.

mod support;

use std::io::Write;
use std::process::Stdio;
use support::{Folder, Stepper, ended, values};

// The handover of the README, by two processes that each see what the other has stored.
#[test]
fn two_in_turn() {
    let folder = Folder::with_log(2);
    let (mut host, mut guest) = (Stepper::start(&folder), Stepper::start(&folder));
    for (line, reply) in [("B 0", "1 ok"), ("F 0", "2 ok"), ("C 0", "3 ok"), ("P 0", "4 ok")] {
        assert_eq!(host.take(line), reply);
    }
    assert_eq!(host.take("W 0 201"), "5 entry 0 place 0");
    assert_eq!(folder.output(&["chain", "run.log"]), "chain 0:201\n");
    assert_eq!(guest.take("N 1"), "1 ok");
    assert_eq!(host.take("W 0 202"), "6 entry 1 place 1");
    for (line, reply) in [("B 1", "2 ok"), ("F 1", "3 ok"), ("L 1", "4 ok"), ("K 1", "5 ok")] {
        assert_eq!(guest.take(line), reply);
    }
    assert_eq!(host.take("W 0 203"), "7 ref 12");
    assert_eq!((guest.take("C 1"), guest.take("P 1")), ("6 ok".into(), "7 ok".into()));
    assert_eq!(guest.take("W 1 204"), "8 entry 2 place 0");
    assert_eq!(folder.output(&["chain", "run.log"]), "chain 0:201 0:202 1:204\n");
    assert_eq!(host.take("2"), "8 bad line");
    host.end();
    guest.end();
}

// A file that is gone takes no step, and neither does one that has come in its place.
#[test]
fn a_removed_file() {
    for replaced in [false, true] {
        let folder = Folder::with_log(1);
        let mut stepper = Stepper::start(&folder);
        assert_eq!(stepper.take("B 0"), "1 ok");
        std::fs::rename(folder.path("run.log"), folder.path("old.log")).unwrap();
        if replaced {
            folder.quiet(&["create", "new.log", "1"]);
            std::fs::rename(folder.path("new.log"), folder.path("run.log")).unwrap();
        }
        writeln!(stepper.input, "F 0").unwrap();
        assert!(stepper.replies.next().is_none());
        let why = "the file was removed or replaced since it was opened";
        let end = ended(stepper.child);
        assert_eq!((end.status, end.errors), (Some(1), format!("cindrolf: run.log: line 2, F 0: not stored: {why}\n")));
    }
}

/// A log whose client 0 may write.
fn writable() -> Folder {
    let folder = Folder::with_log(1);
    assert_eq!(folder.steps(&["B 0", "F 0", "C 0", "P 0"]), "1 ok\n2 ok\n3 ok\n4 ok\n");
    folder
}

// Each reply names the entry, and the value is there.
#[test]
fn sixteen_at_once() {
    const EACH: u64 = 12;
    let folder = writable();
    let processes: Vec<_> = (0..16)
        .map(|process| {
            let lines: Vec<_> = (0..EACH).map(|write| format!("W 0 {}", 1000 * process + write)).collect();
            let mut args = vec!["step", "run.log"];
            args.extend(lines.iter().map(String::as_str));
            (process, folder.program(&args).spawn().unwrap())
        })
        .collect();
    let mut at = vec![None; 16 * EACH as usize];
    for (process, child) in processes {
        let end = ended(child);
        assert_eq!((end.status, end.errors.as_str()), (Some(0), ""));
        assert_eq!(end.output.lines().count() as u64, EACH);
        for (write, reply) in (0..EACH).zip(end.output.lines()) {
            let entry = reply.strip_prefix(&format!("{} entry ", write + 1)).unwrap();
            let (entry, place) = entry.split_once(" place ").unwrap();
            assert_eq!(entry, place);
            let before = at[entry.parse::<usize>().unwrap()].replace(1000 * process + write);
            assert_eq!(before, None, "entry {entry} twice");
        }
    }
    let at: Option<Vec<u64>> = at.into_iter().collect();
    assert_eq!(Some(values(&folder.output(&["chain", "run.log"]))), at);
    assert_eq!(folder.checked("run.log"), format!("ok, {} rows", 4 + 16 * EACH));
}

// Whoever reads while another writes finds a prefix of what is written, no shorter than what was answered before.
#[test]
fn readers_beside_a_writer() {
    let folder = writable();
    let mut writer = folder.program(&["step", "run.log"]).stdin(Stdio::piped()).spawn().unwrap();
    let mut input = writer.stdin.take().unwrap();
    let feeder = std::thread::spawn(move || (0..600).for_each(|value| writeln!(input, "W 0 {value}").unwrap()));
    let mut longest = 0;
    for round in 0..10 {
        let read = values(&folder.output(&["chain", "run.log"]));
        assert!(read.len() >= longest && read.iter().copied().eq(0..read.len() as u64));
        longest = read.len();
        let copy = format!("copy{round}.log");
        folder.quiet(&["copy", "run.log", &copy]);
        let copied = values(&folder.output(&["chain", &copy]));
        assert!(copied.len() >= longest && copied.iter().copied().eq(0..copied.len() as u64));
        assert_eq!(folder.checked(&copy), format!("ok, {} rows", 4 + copied.len()));
        assert!(folder.output(&["show", "run.log"]).contains("named leader  client 0\n"));
        assert!(folder.checked("run.log").starts_with("ok, "));
    }
    feeder.join().unwrap();
    assert_eq!(ended(writer).status, Some(0));
    assert!(values(&folder.output(&["chain", "run.log"])).into_iter().eq(0..600));
}

// Killed at any moment: what was answered is stored, once, and at most one write more.
#[test]
fn a_killed_writer() {
    let folder = writable();
    let mut stored = 0;
    for round in 0..10 {
        let Stepper { mut child, mut input, mut replies } = Stepper::start(&folder);
        let lines: String = (stored..stored + 200).map(|value| format!("W 0 {value}\n")).collect();
        let feeder = std::thread::spawn(move || drop(input.write_all(lines.as_bytes())));
        let mut answered = 0;
        while answered < 3 * round {
            let reply = replies.next().unwrap().unwrap();
            assert!(reply.starts_with(&format!("{} entry {} ", answered + 1, stored + answered)), "{reply}");
            answered += 1;
        }
        child.kill().unwrap();
        child.wait().unwrap();
        answered += replies.count() as u64;
        feeder.join().unwrap();
        let read = values(&folder.output(&["chain", "run.log"]));
        let now = read.len() as u64;
        assert!(read.into_iter().eq(0..now));
        assert!(now == stored + answered || now == stored + answered + 1, "{now}, {stored} and {answered}");
        stored = now;
    }
    assert_eq!(folder.checked("run.log"), format!("ok, {} rows", 4 + stored));
}
