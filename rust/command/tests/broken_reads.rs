//! Wrong FASTQ, and packed files that are cut or damaged: the message, and that nothing of them is stored.

mod support;

use std::fs;
use std::process::{Command, Stdio};
use support::reads::{self, Read, TO_WRITING};
use support::{Folder, ended};

const WRITE: [&str; 5] = ["write", "--fastq", "reads.fastq", "run.log", "0"];

/// One good read, of four lines.
fn good() -> Read {
    Read::new("good", &[30])
}

fn folder_with(bytes: &[u8]) -> Folder {
    let folder = Folder::with_log(1);
    folder.steps(&TO_WRITING);
    fs::write(folder.path("reads.fastq"), bytes).unwrap();
    folder
}

/// The good reads before it are stored, and nothing of the record.
#[test]
fn malformed_records() {
    for (record, line, why) in [
        (&b"@a\nACG\n+\n!!\n"[..], 4, "the quality: it has 2 bytes, and the sequence has 3"),
        (b"@a\nAC\n+\n!!!\n", 4, "the quality: it has 3 bytes, and the sequence has 2"),
        (b"@a\nAC\n!!\n@b\nAC\n+\n!!\n", 3, "the line with +: it does not begin with +"),
        (b"@a\nAC\nGT\n+\n!!!!\n", 3, "the line with +: it does not begin with +"),
        (b"@a\nAC\n+\n!\x1f\n", 4, "the quality: it has byte 31, which is below !"),
        (b"@a\nAC\n+\n! \n", 4, "the quality: it has byte 32, which is below !"),
        (b"@a\n\n+\n\n", 2, "the sequence: the read is empty"),
        (b">a\nAC\n", 3, "the input ends in this record"),
        (b">a\nAC\n>b\nAC\n", 1, "the name: it does not begin with @"),
        (b"@\nAC\n+\n!!\n", 1, "the name: there is no name after @"),
        (b"\n\n@a\nAC\n+\n!!\n", 1, "the name: it is empty, and a record begins with @"),
        (
            b"@a\r\nAC\r\n+\r\n!!\r\n",
            1,
            "the name: it ends with bytes 13 and 10, and not with 10 alone: tr -d '\\r' corrects it",
        ),
        (b"@a\nAC\n+\n!", 4, "the quality: it has 1 bytes, and the sequence has 2"),
        (b"@a\nAC\n+\n", 4, "the input ends in this record"),
        (b"@a\nAC\n+", 3, "the input ends in this record"),
        (b"@a\nA", 2, "the input ends in this record"),
        (b"@a", 1, "the input ends in this record"),
    ] {
        let bytes = [reads::fastq(&[good(), good()]).as_bytes(), record].concat();
        let folder = folder_with(&bytes);
        let end = folder.run(&WRITE);
        let after = "nothing of it is stored; correct it, and give the same command with --resume";
        let said = format!("cindrolf: reads.fastq: record 3, line {}: {why}; {after}\n", 8 + line);
        assert_eq!((end.status, end.errors), (Some(1), said), "{}", record.escape_ascii());
        assert_eq!(end.output, "good entry 0 place 0\ngood entry 1 place 1\n");
        assert_eq!(folder.output(&["chain", "run.log"]), "chain 0:1000000000 0:1000000000\n");
        // Through a pipe it is the same, but for the name.
        let piped = folder_with(b"").run_on(&["write", "--fastq", "-", "run.log", "0"], &bytes);
        assert!(
            piped.errors.starts_with(&format!("cindrolf: -: record 3, line {}: {why}; ", 8 + line)),
            "{}",
            piped.errors
        );
        // Corrected, it goes on.
        fs::write(folder.path("reads.fastq"), reads::fastq(&[good(), good(), Read::new("a", &[20])])).unwrap();
        let resumed = folder.run(&[&WRITE[..], &["--resume"]].concat());
        assert_eq!((resumed.status, resumed.output.as_str()), (Some(0), "a entry 2 place 2\n"));
    }
}

fn packed(folder: &Folder) -> Vec<u8> {
    let packed = Command::new("gzip").args(["-c", "reads.fastq"]).current_dir(folder.path(".")).output().unwrap();
    assert!(packed.status.success());
    packed.stdout
}

// A file is tested before the first read; of a pipe the reads before the fault are stored, and no other.
#[test]
fn packed_files_that_are_cut_or_damaged() {
    let written = reads::random(3, 2_000, 100);
    let whole = packed(&folder_with(reads::fastq(&written).as_bytes()));
    // In the middle, in the sum at the end, and in the sizes after it.
    let damaged = |place: usize| {
        let mut bytes = whole.clone();
        bytes[place] ^= 0x10;
        bytes
    };
    let end = whole.len();
    let cut = whole[..end / 2].to_vec();
    for (what, bytes) in
        [("cut", cut), ("middle", damaged(end / 2)), ("sum", damaged(end - 7)), ("size", damaged(end - 2))]
    {
        let folder = folder_with(&bytes);
        let said = folder.failure(1, &WRITE);
        assert!(said.starts_with("cindrolf: reads.fastq: what gzip has packed is cut or damaged: "), "{what}: {said}");
        assert!(said.ends_with("; nothing of it is stored: get the file once more\n"), "{what}: {said}");
        assert_eq!(folder.checked("run.log"), "ok, 4 rows", "{what}");
        let piped = folder.run_on(&["write", "--fastq", "-", "run.log", "0"], &bytes);
        assert_eq!(piped.status, Some(1), "{what}: {}", piped.errors);
        // What is damaged may also be found as a record that is none.
        assert!(piped.errors.starts_with("cindrolf: -: record "), "{what}: {}", piped.errors);
        assert!(
            what == "middle" || piped.errors.contains("what gzip has packed is cut or damaged: "),
            "{}",
            piped.errors
        );
        let stored = reads::stored(&folder, &["run.log"]);
        assert_eq!(piped.output.lines().count(), stored.len(), "{what}");
        if what != "middle" {
            assert_eq!(stored, reads::expected(&written[..stored.len()]), "{what}");
        }
        // With what was meant, it goes on.
        if what == "cut" {
            assert!((1..2_000).contains(&stored.len()), "{}", stored.len());
            fs::write(folder.path("reads.fastq"), &whole).unwrap();
            assert_eq!(folder.run(&[&WRITE[..], &["--resume"]].concat()).status, Some(0));
            assert_eq!(reads::stored(&folder, &["run.log"]), reads::expected(&written));
        }
    }
}

#[test]
fn without_gzip() {
    let folder = folder_with(reads::fastq(&[good()]).as_bytes());
    fs::write(folder.path("reads.fastq"), packed(&folder)).unwrap();
    let end = ended(folder.program(&WRITE).env("PATH", "").spawn().unwrap());
    assert_eq!((end.status, end.output.as_str()), (Some(1), ""));
    assert!(
        end.errors.starts_with("cindrolf: reads.fastq: gzip, which is to unpack it, cannot be started: "),
        "{}",
        end.errors
    );
    let input = fs::File::open(folder.path("reads.fastq")).unwrap();
    let mut program = folder.program(&["write", "--fastq", "-", "run.log", "0"]);
    let end = ended(program.stdin(input).env("PATH", "").spawn().unwrap());
    assert_eq!((end.status, end.output.as_str()), (Some(1), ""));
    assert!(end.errors.contains("gzip, which is to unpack it, cannot be started: "), "{}", end.errors);
}

#[test]
fn files_that_are_not_there() {
    let folder = folder_with(b"");
    let write = |file| ["write", "--fastq", file, "run.log", "0"];
    assert_eq!(folder.failure(2, &write("nowhere")), "cindrolf: there is no file nowhere\n");
    assert_eq!(folder.failure(2, &write(".")), "cindrolf: . is a folder\n");
    let closed = folder.shell("exec \"$0\" write --fastq - run.log 0 <&-").spawn().unwrap();
    let closed = ended(closed);
    assert_eq!(
        (closed.status, closed.errors.as_str()),
        (Some(2), "cindrolf: standard input is closed, and READS is -\n")
    );
    // The log is no reads: what it begins with is said.
    let said = folder.failure(1, &write("run.log"));
    assert!(
        said.starts_with("cindrolf: run.log: record 1, line 1: the name: it does not begin with @; ")
            || said.contains("ends in this record"),
        "{said}"
    );
    let full = Stdio::from(fs::OpenOptions::new().write(true).open("/dev/full").unwrap());
    fs::write(folder.path("reads.fastq"), reads::fastq(&[good()])).unwrap();
    let end = ended(folder.program(&WRITE).stdout(full).spawn().unwrap());
    assert_eq!(end.status, Some(1));
    let said = "; not printed: answers to what is stored; this call has stored 1 read, the last is good at entry 0 place 0; \
                to go on, give the same command with --resume\n";
    assert!(
        end.errors.starts_with("cindrolf: standard output: No space left") && end.errors.ends_with(said),
        "{}",
        end.errors
    );
}
