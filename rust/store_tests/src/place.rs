//! Where the logs of a run are, and the notes of the processes that share them.

use cindrolf::Capacity;
use std::io;
use std::path::{Path, PathBuf};

/// Where the logs of a run are, each with a number. The notes are in a folder, in either case.
#[derive(Clone, Debug)]
pub struct Place {
    folder: PathBuf,
    /// The address of the server's database as this process uses it; none where the logs are files of the folder.
    database: Option<String>,
}

impl Place {
    /// Logs that are files of this folder, or are on a server at `postgresql://USER@HOST:PORT/DATABASE`.
    pub fn new(folder: &Path, database: Option<&str>) -> Place {
        Place { folder: folder.into(), database: database.map(str::to_owned) }
    }

    /// The address of the database, where the logs are on a server.
    pub fn database(&self) -> Option<&str> {
        self.database.as_deref()
    }

    /// The folder of the notes.
    pub fn folder(&self) -> &Path {
        &self.folder
    }

    /// Whether the logs are on a server.
    pub fn is_server(&self) -> bool {
        self.database.is_some()
    }

    /// What a log is opened by: its file, or its address.
    pub fn log(&self, log: u64) -> PathBuf {
        match &self.database {
            None => self.sign(log),
            Some(database) => format!("{database}/{}", name_of(log)).into(),
        }
    }

    /// A file that is there once the log is: the log itself, or what a process leaves that has opened it on the server.
    fn sign(&self, log: u64) -> PathBuf {
        self.folder.join(format!("{}.{}", name_of(log), if self.is_server() { "opened" } else { "db" }))
    }

    /// Says to the others that this log is there.
    pub fn opened(&self, log: u64) -> io::Result<()> {
        if self.is_server() { std::fs::write(self.sign(log), []) } else { Ok(()) }
    }

    /// Whether a log is known to be there. Nothing was acknowledged in one that is not.
    pub fn has(&self, log: u64) -> bool {
        self.sign(log).exists()
    }

    /// How many logs there are.
    pub fn log_count(&self) -> u64 {
        (0..).find(|&log| !self.has(log)).expect("not all numbers are taken")
    }
}

/// The name of a log.
pub fn name_of(log: u64) -> String {
    format!("log-{log:04}")
}

/// The capacity of a log: every other one is small.
pub fn capacity_of(log: u64) -> Capacity {
    if log.is_multiple_of(2) { Capacity::Large } else { Capacity::Small }
}
