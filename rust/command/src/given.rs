//! A FILE that is a session or a log: opened, and recognised by its content.

use crate::failure::Failure;
use std::fs::{self, File};
use std::io;
use std::os::unix::fs::{FileExt, MetadataExt};
use std::path::{Path, PathBuf};

/// What every file of SQLite begins with.
const SQLITE: &[u8; 16] = b"SQLite format 3\0";

/// What a FILE is.
pub enum Given {
    /// The lines of a session, to be read.
    Session(File),
    /// A log.
    Log,
}

/// Opens the file. What is wrong with its name is wrong with the arguments.
pub fn open(file: &Path) -> Result<File, Failure> {
    let shown = file.display();
    match fs::metadata(file) {
        Err(error) if error.kind() == io::ErrorKind::NotFound => {
            return Err(Failure::Arguments(format!("there is no file {shown}")));
        }
        Ok(there) if there.is_dir() => return Err(Failure::Arguments(format!("{shown} is a folder"))),
        _ => {}
    }
    File::open(file).map_err(|error| Failure::Arguments(format!("{shown} cannot be read: {error}")))
}

/// Whether it is the address of a log on a server.
pub fn is_address(file: &Path) -> bool {
    file.to_str().is_some_and(|text| text.starts_with("postgresql://") || text.starts_with("postgres://"))
}

/// A log that is named a second time, by the same name or by another of the same file.
pub fn twice(logs: &[PathBuf]) -> Option<&Path> {
    let same = |one: &Path, other: &Path| one == other || matches!((id(one), id(other)), (Some(a), Some(b)) if a == b);
    let again = |&index: &usize| logs[..index].iter().any(|log| same(log, &logs[index]));
    (0..logs.len()).find(again).map(|index| &*logs[index])
}

/// What tells a file from every other one.
fn id(file: &Path) -> Option<(u64, u64)> {
    fs::metadata(file).ok().map(|about| (about.dev(), about.ino()))
}

/// Opens the file, and looks into it. A pipe is a session: what is read of it is gone.
pub fn look(file: &Path) -> Result<Given, Failure> {
    if is_address(file) {
        return Ok(Given::Log);
    }
    let opened = open(file)?;
    let mut begin = [0; SQLITE.len()];
    let is_log = opened.read_exact_at(&mut begin, 0).is_ok() && begin == *SQLITE;
    Ok(if is_log { Given::Log } else { Given::Session(opened) })
}
