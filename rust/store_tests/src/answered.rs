//! The last row that each process was answered, for all others to see at once.

use std::fs::{File, OpenOptions};
use std::io;
use std::os::unix::fs::FileExt;
use std::path::Path;

/// Bits of a word that hold the row; the log is above them.
const ROW_BITS: u32 = 40;

/// A file with a word for each process.
pub struct Answered {
    file: File,
    process: u64,
    processes: u64,
}

impl Answered {
    /// The words of so many processes, of which this is one.
    pub fn open(folder: &Path, process: u64, processes: u64) -> io::Result<Answered> {
        let mut options = OpenOptions::new();
        let file = options.read(true).write(true).create(true).truncate(false).open(folder.join("answered"))?;
        Ok(Answered { file, process, processes })
    }

    /// Tells the others that this process was answered by this row.
    pub fn tell(&self, log: u64, row: i64) -> io::Result<()> {
        self.file.write_all_at(&(log << ROW_BITS | row as u64).to_le_bytes(), 8 * self.process)
    }

    /// The greatest row of a log that any process has told of.
    pub fn known(&self, log: u64) -> io::Result<i64> {
        let mut bytes = vec![0; 8 * self.processes as usize];
        let count = self.file.read_at(&mut bytes, 0)?;
        let words = bytes[..count].as_chunks().0.iter().map(|&word| u64::from_le_bytes(word));
        let rows = words.filter(|word| word >> ROW_BITS == log).map(|word| word & ((1 << ROW_BITS) - 1));
        Ok(rows.max().unwrap_or(0) as i64)
    }
}
