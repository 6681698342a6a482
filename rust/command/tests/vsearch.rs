//! Expected errors of reads, compared with those of vsearch, a program by others.

mod support;

use std::fs;
use std::process::Command;
use support::Folder;
use support::reads::{self, Read};

const PARTS: f64 = 1e12;

/// Writes the reads, and gives the value of each.
fn written(folder: &Folder, reads: &[Read]) -> Vec<u64> {
    fs::write(folder.path("reads.fastq"), reads::fastq(reads)).unwrap();
    reads::logs(folder, false, &["run.log"]);
    folder.output(&["write", "--fastq", "reads.fastq", "run.log", "0"]);
    support::values(&folder.output(&["chain", "run.log"]))
}

/// What vsearch prints of each read of a file: `@NAME;ee=0.1234`.
fn by_vsearch(folder: &Folder) -> Vec<String> {
    let mut vsearch = Command::new("vsearch");
    vsearch.args(["--fastx_filter", "reads.fastq", "--eeout", "--fastqout", "-", "--fastq_qmax", "93", "--quiet"]);
    let output = vsearch.current_dir(folder.path(".")).output().unwrap();
    assert!(output.status.success(), "{}", String::from_utf8_lossy(&output.stderr));
    let text = String::from_utf8(output.stdout).unwrap();
    let headers = text.lines().step_by(4).map(|line| line.split_once(";ee=").expect("its expected errors").1);
    headers.map(|rest| rest.split([' ', ';']).next().unwrap().to_owned()).collect()
}

/// Whether a value is what was printed, to its last digit.
fn agrees(value: u64, printed: &str) -> bool {
    let digits = printed.split_once('.').map_or(0, |(_, digits)| digits.len());
    let half_a_digit = 0.5 * 10_f64.powi(-(digits as i32));
    let slack = 1e-9;
    (value as f64 / PARTS - printed.parse::<f64>().unwrap()).abs() <= half_a_digit + slack
}

#[test]
#[ignore = "tests/reads runs it, where there is vsearch"]
fn two_thousand_reads() {
    let (folder, reads) = (Folder::new(), reads::random(10, 2_000, 300));
    let values = written(&folder, &reads);
    let printed = by_vsearch(&folder);
    assert_eq!((values.len(), printed.len()), (2_000, 2_000));
    for ((read, &value), printed) in reads.iter().zip(&values).zip(&printed) {
        assert!(agrees(value, printed), "{}: {value} and {printed}", read.name);
    }
    // The same comparison tells one read from the next.
    let others = values.iter().zip(printed.iter().skip(1)).filter(|(value, printed)| agrees(**value, printed));
    assert!(others.count() < 20);
}
