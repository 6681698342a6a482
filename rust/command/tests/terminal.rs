//! What is written to a terminal while reads are written.

mod support;

use std::fs;
use std::process::Command;
use store_tests::skipped::skipped;
use support::reads;
use support::{Folder, ended};

// `script` of Debian's bsdutils gives the program a terminal.
#[test]
fn progress_on_a_terminal() {
    if Command::new("script").arg("--version").output().is_err() {
        skipped("progress_on_a_terminal", "there is no command script; Debian has it in the package bsdutils");
        return;
    }
    let (folder, written) = (Folder::new(), reads::random(11, 3_000, 100));
    fs::write(folder.path("reads.fastq"), reads::fastq(&written)).unwrap();
    reads::logs(&folder, false, &["run.log"]);
    let program = env!("CARGO_BIN_EXE_cindrolf");
    let line = format!("'{program}' write --fastq reads.fastq run.log 0 >answers");
    let end = ended(folder.shell(&format!("script --quiet --return --command \"{line}\" /dev/null")).spawn().unwrap());
    assert_eq!(end.status, Some(0), "{}", end.output);
    assert_eq!(fs::read_to_string(folder.path("answers")).unwrap(), reads::answers(&written, 4_096));
    let shown: Vec<_> = end.output.split("\r\x1B[K").filter(|part| !part.trim().is_empty()).collect();
    let is_progress = |line: &str| {
        let words: Vec<_> = line.split(' ').collect();
        matches!(words[..], [_, "reads,", _, "a", "second,", _, "s", "left"])
    };
    assert!(!shown.is_empty() && shown.iter().all(|line| is_progress(line)), "{shown:?}");
    // The line is cleared at the end.
    assert!(end.output.ends_with("\r\x1B[K"), "{:?}", end.output);
}
