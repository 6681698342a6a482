//! `write`: reads from FASTQ, lists of scores and values; packed, through pipes, and over several logs.

mod support;

use std::fs;
use std::io::{BufRead, BufReader, Write};
use std::process::{Command, Stdio};
use support::reads::{self, Read, TO_WRITING};
use support::{Folder, ended};

/// Three reads. Phred 10, 20, 30 and 40 are error probabilities of a tenth to a ten thousandth.
fn three() -> Vec<Read> {
    vec![Read::new("a", &[10, 20, 30]), Read::new("b:1", &[0]), Read::new("größe", &[40, 40])]
}

const THREE: &str = "chain 0:111000000000 0:1000000000000 0:200000000\n";
const ANSWERS: &str = "a entry 0 place 0\nb:1 entry 1 place 1\ngröße entry 2 place 2\n";

fn folder_with(text: &str) -> Folder {
    let folder = Folder::with_log(2);
    folder.steps(&TO_WRITING);
    fs::write(folder.path("reads.fastq"), text).unwrap();
    folder
}

/// Packs a file by gzip, which stays.
fn packed(folder: &Folder, file: &str) -> Vec<u8> {
    let packed = Command::new("gzip").args(["-c", file]).current_dir(folder.path(".")).output().unwrap();
    assert!(packed.status.success());
    packed.stdout
}

#[test]
fn each_record_is_a_read() {
    let text = reads::fastq(&three());
    assert!(text.starts_with("@a 1:N:0\nAAA\n+\n+5?\n@b:1 1:N:0\nA\n+\n!\n"), "{text}");
    let folder = folder_with(&text);
    for args in
        [["write", "--fastq", "reads.fastq", "run.log", "0"], ["write", "run.log", "0", "--fastq", "reads.fastq"]]
    {
        fs::copy(folder.path("run.log"), folder.path("before.log")).unwrap();
        assert_eq!(folder.output(&args), ANSWERS);
        assert_eq!(folder.output(&["chain", "run.log"]), THREE);
        assert_eq!(reads::stored(&folder, &["run.log"]), reads::expected(&three()));
        assert_eq!(folder.checked("run.log"), "ok, 7 rows");
        fs::rename(folder.path("before.log"), folder.path("run.log")).unwrap();
    }
}

#[test]
fn packed_and_through_pipes() {
    let text = reads::fastq(&three());
    let gzip = packed(&folder_with(&text), "reads.fastq");
    // Two packed files, one after the other, are one.
    let halves = [
        packed(&folder_with(&reads::fastq(&three()[..1])), "reads.fastq"),
        packed(&folder_with(&reads::fastq(&three()[1..])), "reads.fastq"),
    ];
    for bytes in [text.into_bytes(), gzip, halves.concat()] {
        let folder = folder_with("");
        fs::write(folder.path("reads.fastq"), &bytes).unwrap();
        assert_eq!(folder.output(&["write", "--fastq", "reads.fastq", "run.log", "0"]), ANSWERS);
        for file in ["-", "/dev/stdin"] {
            let folder = folder_with("");
            let end = folder.run_on(&["write", "--fastq", file, "run.log", "0"], &bytes);
            assert_eq!((end.status, end.output.as_str(), end.errors.as_str()), (Some(0), ANSWERS, ""), "{file}");
            assert_eq!(folder.output(&["chain", "run.log"]), THREE);
        }
    }
    let folder = folder_with("");
    assert_eq!(folder.output(&["write", "--fastq", "reads.fastq", "run.log", "0"]), "");
}

// A base caller that gives one read after the other is answered before it gives the next.
#[test]
fn answered_as_they_come() {
    let folder = folder_with("");
    let mut child = folder.program(&["write", "--fastq", "-", "run.log", "0"]).stdin(Stdio::piped()).spawn().unwrap();
    let mut input = child.stdin.take().unwrap();
    let mut answers = BufReader::new(child.stdout.take().unwrap()).lines();
    for (read, answer) in three().iter().zip(ANSWERS.lines()) {
        let text = reads::fastq(std::slice::from_ref(read));
        let (first, second) = text.split_at(7);
        input.write_all(first.as_bytes()).unwrap();
        std::thread::sleep(std::time::Duration::from_millis(20));
        input.write_all(second.as_bytes()).unwrap();
        assert_eq!(answers.next().unwrap().unwrap(), answer);
    }
    drop(input);
    assert_eq!(ended(child).status, Some(0));
}

// Another leader fences the ledger between two reads: the writing ends there, and the new leader goes on.
#[test]
fn fenced_meanwhile() {
    let folder = folder_with("");
    let mut child = folder.program(&["write", "--fastq", "-", "run.log", "0"]).stdin(Stdio::piped()).spawn().unwrap();
    let mut input = child.stdin.take().unwrap();
    let mut answers = BufReader::new(child.stdout.take().unwrap()).lines();
    let all = three();
    input.write_all(reads::fastq(&all[..1]).as_bytes()).unwrap();
    assert_eq!(answers.next().unwrap().unwrap(), "a entry 0 place 0");
    folder.steps(&["N 1", "B 1", "F 1", "L 1", "K 1", "C 1", "P 1"]);
    input.write_all(reads::fastq(&all[1..]).as_bytes()).unwrap();
    drop(input);
    assert!(answers.next().is_none());
    let end = ended(child);
    let said = "cindrolf: run.log: read 2, b:1: ref 12: write of client 0: another leader has fenced the ledger; \
                this call has stored 1 read, the last is a at entry 0 place 0; to go on, give the same command with --resume\n";
    assert_eq!((end.status, end.errors.as_str()), (Some(1), said));
    fs::write(folder.path("rest.fastq"), reads::fastq(&all[1..])).unwrap();
    let rest = folder.output(&["write", "--fastq", "rest.fastq", "run.log", "1"]);
    assert_eq!(rest, "b:1 entry 1 place 0\ngröße entry 2 place 1\n");
    assert_eq!(folder.output(&["chain", "run.log"]), THREE.replace(" 0:10000", " 1:10000").replace(" 0:2", " 1:2"));
}

#[test]
fn lists_and_values() {
    let folder = folder_with("");
    let end = folder.run_on(&["write", "--scores", "run.log", "0"], b"40 80 120\n0\n\n373\n372 160\n");
    let answers = "1 entry 0 place 0\n2 entry 1 place 1\n\
                   3 ref 18: write of client 0: there are no scores or more than four thousand\n\
                   4 ref 19: write of client 0: a score is above three hundred and seventy two\n5 entry 2 place 2\n";
    assert_eq!((end.status, end.output.as_str(), end.errors.as_str()), (Some(0), answers, ""));
    // 10^-9.3 is 0.000000000501.
    assert_eq!(folder.output(&["chain", "run.log"]), "chain 0:111000000000 0:1000000000000 0:100000501\n");
    let values = ["write", "run.log", "0", "201", "0", "4503599627370495"];
    assert_eq!(folder.output(&values), "1 entry 3 place 3\n2 entry 4 place 4\n3 entry 5 place 5\n");
    assert!(folder.output(&["chain", "run.log"]).ends_with(" 0:201 0:0 0:4503599627370495\n"));
    let strict = folder.run_on(&["write", "--strict", "--scores", "run.log", "0"], b"40\n373\n80\n");
    assert_eq!((strict.status, strict.output.as_str()), (Some(1), "1 entry 6 place 6\n"));
    let said = "cindrolf: run.log: list 2: ref 19: write of client 0: a score is above three hundred and seventy two; \
                this call has stored 1 list, the last is 1 at entry 6 place 6\n";
    assert_eq!(strict.errors, said);
    for (input, why) in [
        (&b"40\n40,80\n40\n"[..], "line 2: a list is scores of 0 to 372, with one space between two of them"),
        (b"40\n80", "line 2: the input ends before the line does"),
    ] {
        let before = folder.output(&["chain", "run.log"]);
        let end = folder.run_on(&["write", "--scores", "run.log", "0"], input);
        assert_eq!(end.status, Some(1));
        assert!(end.errors.starts_with(&format!("cindrolf: standard input: {why}")), "{}", end.errors);
        assert!(end.errors.ends_with("; nothing of it is stored\n"), "{}", end.errors);
        assert_eq!(folder.output(&["chain", "run.log"]), before.trim_end().to_owned() + " 0:100000000000\n");
    }
}

// 512 in the first, 512 in the second, and the others in the third.
#[test]
fn over_several_logs() {
    let (folder, written) = (Folder::new(), reads::random(1, 1_200, 30));
    fs::write(folder.path("reads.fastq"), reads::fastq(&written)).unwrap();
    let logs = ["1.log", "2.log", "3.log"];
    reads::logs(&folder, true, &logs);
    let end = folder.run(&["write", "--fastq", "reads.fastq", "1.log", "2.log", "3.log", "0"]);
    assert_eq!((end.status, end.output), (Some(0), reads::answers(&written, 512)));
    assert_eq!(end.errors, "cindrolf: 1.log is full: going on in 2.log\ncindrolf: 2.log is full: going on in 3.log\n");
    for (log, part) in logs.iter().zip(written.chunks(512)) {
        assert_eq!(reads::stored(&folder, &[log]), reads::expected(part));
    }
    assert_eq!(folder.checked("1.log"), "ok, 516 rows");
}

#[test]
fn each_log_is_full() {
    let (folder, written) = (Folder::new(), reads::random(2, 1_030, 5));
    fs::write(folder.path("reads.fastq"), reads::fastq(&written)).unwrap();
    reads::logs(&folder, true, &["1.log", "2.log", "3.log"]);
    let end = folder.run(&["write", "--fastq", "reads.fastq", "1.log", "2.log", "0"]);
    assert_eq!((end.status, end.output), (Some(1), reads::answers(&written[..1_024], 512)));
    let said = format!(
        "cindrolf: 2.log: read 1025, {}: ref 13: each LOG is full: create one more, and name it as the last; this call \
         has stored 1024 reads, the last is {} at entry 511 place 511; to go on, give the same command with --resume\n",
        written[1_024].name, written[1_023].name
    );
    assert_eq!(end.errors.lines().last(), said.lines().last());
    let again = folder.run(&["write", "--fastq", "reads.fastq", "1.log", "2.log", "0"]);
    assert_eq!((again.status, again.output.as_str()), (Some(1), ""));
    assert!(
        again.errors.contains("read 1, again: ref 13: ") && again.errors.contains("has stored nothing"),
        "{}",
        again.errors
    );
    let resumed = folder.run(&["write", "--resume", "--fastq", "reads.fastq", "1.log", "2.log", "3.log", "0"]);
    assert_eq!((resumed.status, resumed.errors.as_str()), (Some(0), "cindrolf: 1024 reads are stored already\n"));
    assert_eq!(reads::stored(&folder, &["1.log", "2.log", "3.log"]), reads::expected(&written));
}

// Each log is looked at before the first read is written.
#[test]
fn a_client_that_is_not_writing() {
    let folder = folder_with(&reads::fastq(&three()));
    folder.quiet(&["create", "next.log", "2"]);
    let said = "cindrolf: next.log: client 0 is waiting there, and has to be writing: 'cindrolf advise next.log 0' names its next step\n";
    assert_eq!(folder.failure(1, &["write", "--fastq", "reads.fastq", "run.log", "next.log", "0"]), said);
    let unknown = "cindrolf: run.log: the client number is not below the client count (refusal 3)\n";
    assert_eq!(folder.failure(1, &["write", "--fastq", "reads.fastq", "run.log", "2"]), unknown);
    let missing = "cindrolf: nowhere.log: there is no such file\n";
    assert_eq!(folder.failure(1, &["write", "--fastq", "reads.fastq", "run.log", "nowhere.log", "0"]), missing);
    // Another leader has fenced the ledger, or the right is gone.
    folder.steps(&["N 1", "B 1", "F 1", "L 1"]);
    let end = folder.failure(1, &["write", "--fastq", "reads.fastq", "run.log", "0"]);
    let said = "cindrolf: run.log: read 1, a: ref 12: write of client 0: another leader has fenced the ledger; \
                this call has stored nothing; to go on, give the same command with --resume\n";
    assert_eq!(end, said);
    folder.quiet(&["revoke", "run.log", "0", "W"]);
    assert!(folder.failure(1, &["write", "run.log", "0", "7"]).starts_with("cindrolf: run.log: value 1: ref 24: "));
    assert_eq!(folder.output(&["chain", "run.log"]), "chain\n");
}

// 4,000 bases are the most; bytes after ~ are qualities above 93.
#[test]
fn reads_that_the_log_refuses() {
    let mut text = reads::fastq(&three()[..1]);
    text += &reads::fastq(&[Read::new("long", &[30; 4_001])]);
    text += "@high\nAC\n+\n?\x7f\n";
    text += &reads::fastq(&three()[1..]);
    text += &reads::fastq(&[Read::new("longest", &[30; 4_000])]);
    let folder = folder_with(&text);
    let long = "long ref 18: write of client 0: there are no scores or more than four thousand\n";
    let answers = format!(
        "a entry 0 place 0\n{long}high ref 19: write of client 0: a score is above three hundred and seventy two\n\
         b:1 entry 1 place 1\ngröße entry 2 place 2\nlongest entry 3 place 3\n"
    );
    let write = ["write", "--fastq", "reads.fastq", "run.log", "0"];
    let strict = folder.run(&[&write[..], &["--strict"]].concat());
    assert_eq!((strict.status, strict.output.as_str()), (Some(1), "a entry 0 place 0\n"));
    let said = format!(
        "cindrolf: run.log: read 2, {}; this call has stored 1 read, the last is a at entry 0 place 0; \
         to go on, give the same command with --resume\n",
        long.trim_end().replace("long ref", "long: ref")
    );
    assert_eq!(strict.errors, said);
    assert_eq!(folder.output(&["chain", "run.log"]), "chain 0:111000000000\n");
    // A resumed call names the refused reads after the last one that is stored once more.
    let resumed = folder.run(&[&write[..], &["--resume"]].concat());
    assert_eq!(
        (resumed.status, resumed.output.as_str()),
        (Some(0), answers.strip_prefix("a entry 0 place 0\n").unwrap())
    );
    assert_eq!(resumed.errors, "cindrolf: 1 read is stored already\n");
    assert_eq!(folder.output(&["chain", "run.log"]), THREE.trim_end().to_owned() + " 0:4000000000000\n");
    let again = folder.run(&[&write[..], &["--resume"]].concat());
    assert_eq!((again.status, again.output.as_str()), (Some(0), ""));
    // None of the refused ones has a row: four steps, and four reads.
    assert_eq!(folder.checked("run.log"), "ok, 8 rows");
}
