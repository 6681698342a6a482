//! Why a file could not be opened or changed, if SQLite's message does not say.

use super::system::{account, may_read_and_write};
use super::watched::Beside;
use crate::{Error, Stored};
use limits::PATH_LIMIT;
use std::os::unix::ffi::OsStrExt;
use std::os::unix::fs::MetadataExt;
use std::path::{Path, PathBuf};

/// The same error, or one that names what stands in the way.
pub(crate) fn of(error: Error, path: &Path) -> Error {
    let cannot = [sqlite::CANTOPEN, sqlite::READONLY, sqlite::PERM, sqlite::IOERR];
    match &error {
        Error::Engine { stored: Stored::No, fault } if cannot.contains(&fault.primary()) => {
            let code = format!("(SQLite's code {})", fault.code);
            obstacle(path).map_or(error, |why| Error::File(format!("{why} {code}")))
        }
        _ => error,
    }
}

/// The same of a log that could not be opened: where it is damaged, what stands beside it may be another log's.
pub(crate) fn of_opening(error: Error, path: &Path) -> Error {
    match (error, left_beside(path)) {
        (Error::Damaged(why), Some(wal)) => Error::Damaged(format!(
            "{why}; {} stands beside it: if the file was put there from elsewhere, that one is another log's, and has to \
             be moved away",
            wal.display()
        )),
        (error, _) => of(error, path),
    }
}

/// What keeps SQLite from a file that this account may read and write.
fn obstacle(path: &Path) -> Option<String> {
    let path = full(path);
    let length = path.as_os_str().as_bytes().len();
    if length > PATH_LIMIT {
        return Some(format!("its path has {length} bytes, and SQLite opens none of more than {PATH_LIMIT}"));
    }
    if !may_read_and_write(&path) {
        return None;
    }
    ["-wal", "-shm"].iter().find_map(|end| {
        let beside = with_end(&path, end);
        let file = std::fs::metadata(&beside).ok()?;
        if !file.is_file() {
            return Some(format!("{} is no file, and one of SQLite's has to be there: move it away", beside.display()));
        }
        let (owner, me) = (file.uid(), account());
        (!may_read_and_write(&beside)).then(|| {
            let name = beside.display();
            format!("{name} belongs to account {owner}, and account {me} may not write it: give it back with chown")
        })
    })
}

/// A write-ahead log with something in it.
fn left_beside(path: &Path) -> Option<PathBuf> {
    let wal = with_end(&full(path), "-wal");
    (wal.exists() && !Beside::is_empty(&wal)).then_some(wal)
}

/// The path as SQLite makes it: absolute, and without symbolic links.
fn full(path: &Path) -> PathBuf {
    path.canonicalize().or_else(|_| std::path::absolute(path)).unwrap_or_else(|_| path.into())
}

fn with_end(path: &Path, end: &str) -> PathBuf {
    let mut name = path.as_os_str().to_owned();
    name.push(end);
    name.into()
}
