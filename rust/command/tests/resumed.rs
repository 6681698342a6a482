//! Interrupted writing that continues with --resume: no read is lost, and none is stored twice.

mod support;

use model::random::Random;
use std::fs;
use std::io::{BufRead, BufReader, Write};
use std::os::unix::process::ExitStatusExt;
use std::process::{Command, Stdio};
use std::time::Duration;
use support::reads::{self, Read};
use support::{Folder, SIGHUP, SIGINT, SIGTERM, ended, send};

const SIGKILL: i32 = 9;
const LOGS: [&str; 3] = ["1.log", "2.log", "3.log"];
const WRITE: [&str; 7] = ["write", "--fastq", "reads.fastq", "1.log", "2.log", "3.log", "0"];
const RESUME: [&str; 8] = ["write", "--resume", "--fastq", "reads.fastq", "1.log", "2.log", "3.log", "0"];

/// Reads as FASTQ with some among them that the log refuses, and three logs for them.
fn laboratory(seed: u64, count: u64) -> (Folder, Vec<Read>) {
    let (folder, written) = (Folder::new(), reads::random(seed, count, 40));
    let mut text = String::new();
    for (number, part) in written.chunks(100).enumerate() {
        text += &reads::fastq(part);
        if number % 3 == 0 {
            text += "@again\nAC\n+\n?\x7f\n";
        }
    }
    fs::write(folder.path("reads.fastq"), text).unwrap();
    reads::logs(&folder, false, &LOGS);
    (folder, written)
}

/// Starts it, and sends a signal after this time. Gives its answers, and whether the signal ended it.
fn interrupted(folder: &Folder, args: &[&str], signal: i32, after: Duration) -> (Vec<String>, bool) {
    let mut child = folder.program(args).stderr(Stdio::null()).spawn().unwrap();
    let output = BufReader::new(child.stdout.take().unwrap());
    let answers = std::thread::spawn(move || output.split(b'\n').map(|line| line.unwrap()).collect::<Vec<_>>());
    std::thread::sleep(after);
    send(&child, signal);
    let status = child.wait().unwrap();
    assert!(status.signal() == Some(signal) || status.success(), "{status}");
    // The last answer of one that was killed may be cut.
    let mut answers: Vec<_> =
        answers.join().unwrap().into_iter().map(|line| String::from_utf8(line).unwrap()).collect();
    if signal == SIGKILL {
        answers.pop();
    }
    (answers, status.signal().is_some())
}

/// How many of the reads are stored, from the first on; none where something else is.
fn prefix(folder: &Folder, written: &[Read]) -> Option<usize> {
    let stored = reads::stored(folder, &LOGS);
    let count = stored.len();
    (count <= written.len() && stored == reads::expected(&written[..count])).then_some(count)
}

// At any moment, by any signal: after each the logs have the first reads in their order, at least those that were answered.
#[test]
fn killed_again_and_again() {
    let (folder, written) = laboratory(4, 12_000);
    let packed = Command::new("gzip").args(["--keep", "reads.fastq"]).current_dir(folder.path(".")).status();
    assert!(packed.unwrap().success());
    let mut resume_packed = RESUME;
    resume_packed[3] = "reads.fastq.gz";
    let (mut random, mut reached, mut in_the_middle) = (Random::new(5), 0, 0);
    // What is stored is passed over each time, so that the later ones need more.
    for round in 0..25 {
        let signal = random.pick(&[SIGKILL, SIGKILL, SIGINT, SIGTERM, SIGHUP]);
        let after = Duration::from_micros(random.below(20_000 + 5_000 * round));
        let resume = if round % 3 == 2 { resume_packed } else { RESUME };
        let (answers, by_signal) = interrupted(&folder, &resume, signal, after);
        let now = prefix(&folder, &written).expect("the first reads, each once, in their order");
        let answered = answers.iter().filter(|answer| answer.contains(" entry ")).count();
        assert!(now >= reached + answered, "{now} are stored, {reached} were before, and {answered} were answered");
        in_the_middle += usize::from(by_signal && now > reached && now < written.len());
        reached = now;
    }
    assert!(in_the_middle >= 3, "only {in_the_middle} signals came in the middle");
    assert_eq!(folder.run(&RESUME).status, Some(0));
    assert_eq!(prefix(&folder, &written), Some(12_000));
    let again = folder.run(&RESUME);
    assert_eq!((again.status, again.output.as_str()), (Some(0), ""));
    assert_eq!(again.errors, "cindrolf: 12000 reads are stored already\n");
    assert_eq!(prefix(&folder, &written), Some(12_000));
}

// The same look finds what a second call without --resume repeats, and what one lacks that begins too late.
#[test]
fn wrong_ways_to_go_on_are_found() {
    let (folder, written) = laboratory(6, 600);
    fs::write(folder.path("first.fastq"), reads::fastq(&written[..300])).unwrap();
    folder.output(&["write", "--fastq", "first.fastq", "1.log", "2.log", "3.log", "0"]);
    assert_eq!(prefix(&folder, &written), Some(300));
    fs::copy(folder.path("1.log"), folder.path("kept.log")).unwrap();
    folder.output(&WRITE);
    assert_eq!(prefix(&folder, &written), None);
    fs::rename(folder.path("kept.log"), folder.path("1.log")).unwrap();
    fs::write(folder.path("late.fastq"), reads::fastq(&written[301..])).unwrap();
    folder.output(&["write", "--fastq", "late.fastq", "1.log", "2.log", "3.log", "0"]);
    assert_eq!(prefix(&folder, &written), None);
}

// Ctrl-C while it waits for a pipe: what was read is stored, it ends by the signal, and one file is left.
#[test]
fn a_signal_while_it_waits() {
    for signal in [SIGINT, SIGTERM, SIGHUP] {
        let (folder, written) = laboratory(7, 10);
        let mut child = folder.program(&["write", "--fastq", "-", "1.log", "0"]).stdin(Stdio::piped()).spawn().unwrap();
        let mut input = child.stdin.take().unwrap();
        let text = reads::fastq(&written[..3]);
        input.write_all(&text.as_bytes()[..text.len() - 5]).unwrap();
        let mut answers = BufReader::new(child.stdout.take().unwrap()).lines();
        assert_eq!(answers.next().unwrap().unwrap(), "again entry 0 place 0");
        assert!(answers.next().unwrap().unwrap().ends_with(" entry 1 place 1"));
        send(&child, signal);
        assert_eq!(child.wait().unwrap().signal(), Some(signal));
        assert!(answers.next().is_none());
        assert!(!folder.names().iter().any(|name| name.ends_with("-wal")), "{:?}", folder.names());
        assert_eq!(prefix(&folder, &written), Some(2));
    }
}

// A log of other reads is left as it is.
#[test]
fn other_reads() {
    let (folder, written) = laboratory(8, 5);
    let write = |file: &'static str| ["write", "--resume", "--fastq", file, "1.log", "2.log", "3.log", "0"];
    folder.output(&WRITE);
    let rows = folder.checked("1.log");
    let refused = |file: &'static str, reads: &[Read], why: &str| {
        fs::write(folder.path(file), reads::fastq(reads)).unwrap();
        let said = folder.failure(1, &write(file));
        assert!(said.starts_with(&format!("cindrolf: 1.log: {why}; nothing is written: give the LOGs ")), "{said}");
        assert_eq!(folder.checked("1.log"), rows);
    };
    let mut other = written.clone();
    other[2].name = "other".into();
    refused("other.fastq", &other, "row 7, read run7:2: read 3 of the input is other");
    let mut changed = written.clone();
    changed[2].qualities[0] ^= 1;
    refused("changed.fastq", &changed, "row 7, read run7:2: read 3 of the input has other scores");
    refused("short.fastq", &written[..4], "row 9, read run7:4: the input has only 4 reads");
    // In another order of the logs, the first reads are not where they were.
    fs::write(folder.path("more.fastq"), reads::fastq(&[&written[..], &written[..]].concat())).unwrap();
    folder.output(&["write", "--fastq", "reads.fastq", "2.log", "0"]);
    let resumed = folder.run(&write("more.fastq"));
    assert_eq!((resumed.status, resumed.output.as_str()), (Some(0), ""));
    assert_eq!(resumed.errors, "cindrolf: 10 reads are stored already\n");
    // What is there of an earlier file comes first, as the message says.
    fs::write(folder.path("next.fastq"), reads::fastq(&reads::random(9, 7, 30))).unwrap();
    let script = "cat more.fastq next.fastq | \"$0\" write --resume --fastq - 1.log 2.log 3.log 0";
    let end = ended(folder.shell(script).spawn().unwrap());
    assert_eq!((end.status, end.output.lines().count()), (Some(0), 7), "{}", end.errors);
    // It goes on in the log of the last read, though the one before has room.
    assert_eq!(reads::stored(&folder, &["2.log"]).len(), 12);
}
