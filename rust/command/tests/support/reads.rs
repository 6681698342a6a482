//! Reads as FASTQ, logs to write them to, and what these store.

use super::Folder;
use model::random::Random;
use std::fmt::Write;
use store::{Change, Store};

/// A read: its name, and the quality of each base in Phred units.
#[derive(Clone, Debug, PartialEq, Eq)]
pub struct Read {
    pub name: String,
    pub qualities: Vec<u8>,
}

/// What makes client 0 of a fresh log write.
pub const TO_WRITING: [&str; 4] = ["B 0", "F 0", "C 0", "P 0"];

impl Read {
    pub fn new(name: &str, qualities: &[u8]) -> Self {
        Read { name: name.into(), qualities: qualities.to_vec() }
    }

    /// Its scores, in quarters of a unit.
    pub fn scores(&self) -> Vec<u16> {
        self.qualities.iter().map(|&quality| 4 * u16::from(quality)).collect()
    }

    /// What the log has to store of it, by the model.
    pub fn value(&self) -> u64 {
        self.scores().into_iter().map(model::scores::part).sum()
    }
}

/// Reads of 1 to so many bases. Of ten names one occurs twice, and one has the first 200 bytes of another.
pub fn random(seed: u64, count: u64, longest: u64) -> Vec<Read> {
    let mut random = Random::new(seed);
    let name = |number: u64| match number % 10 {
        0 => "again".into(),
        1 => format!("{}{number}", "x".repeat(200)),
        _ => format!("run7:{number}"),
    };
    let mut read = |number| {
        let length = random.between(1, longest);
        Read { name: name(number), qualities: (0..length).map(|_| random.between(0, 93) as u8).collect() }
    };
    (0..count).map(&mut read).collect()
}

/// They as FASTQ, with a comment after each name.
pub fn fastq(reads: &[Read]) -> String {
    let mut text = String::new();
    for read in reads {
        let quality: String = read.qualities.iter().map(|&quality| char::from(b'!' + quality)).collect();
        let _ = write!(text, "@{} 1:N:0\n{}\n+\n{quality}\n", read.name, "A".repeat(quality.len()));
    }
    text
}

/// What is noted of a name: no more than 200 bytes.
pub fn noted(name: &str) -> &str {
    &name[..name.len().min(200)]
}

/// Makes logs in which client 0 writes.
pub fn logs(folder: &Folder, small: bool, names: &[&str]) {
    for name in names {
        if small {
            folder.quiet(&["create", "--small", name, "2"]);
        } else {
            folder.quiet(&["create", name, "2"]);
        }
        folder.output(&[&["step", name], &TO_WRITING[..]].concat());
    }
}

/// The notes, scores and values of the reads that are stored in these logs, in their order.
pub fn stored(folder: &Folder, logs: &[&str]) -> Vec<(String, Vec<u16>, u64)> {
    let mut reads = Vec::new();
    for log in logs {
        let mut store = Store::open(folder.path(log)).unwrap();
        let each = store.each_row(|row| {
            if let (Change::WriteScores(0, scores), Some(value)) = (&row.change, row.value) {
                reads.push((row.note.unwrap_or("").to_owned(), scores.clone(), value));
            }
            Ok(())
        });
        each.unwrap();
        assert_eq!(store.check().unwrap().wrong, []);
    }
    reads
}

/// What has to be stored of reads.
pub fn expected(reads: &[Read]) -> Vec<(String, Vec<u16>, u64)> {
    reads.iter().map(|read| (noted(&read.name).to_owned(), read.scores(), read.value())).collect()
}

/// The answers to reads that are stored in logs of this capacity, one after the other, from an empty one on.
pub fn answers(reads: &[Read], capacity: usize) -> String {
    let each = reads.iter().enumerate().map(|(number, read)| {
        let entry = number % capacity;
        format!("{} entry {entry} place {entry}\n", noted(&read.name))
    });
    each.collect()
}
