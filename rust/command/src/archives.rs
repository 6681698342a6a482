//! Runs written to archives, and logs restored from them.

use crate::failure::Failure;
use crate::signals::Signals;
use crate::{open, whole};
use std::io::{IsTerminal, Read, Write};
use std::path::Path;
use store::{Error, Store};

/// In the place of a file's name: standard output, or standard input.
const STANDARD: &str = "-";

/// Writes the whole run of a log to a new archive.
pub fn archive(file: &Path, to: &Path) -> Result<(), Failure> {
    if to != Path::new(STANDARD) {
        return whole(file, to, |store| store.archive_to(to));
    }
    let mut output = std::io::stdout();
    if output.is_terminal() {
        return Err(Failure::Arguments("an archive is no text: name a file, or a program after '|'".into()));
    }
    let bytes = open(file)?.archive().map_err(|error| Failure::of_reading(file, error))?;
    output.write_all(&bytes).and_then(|()| output.flush()).map_err(Failure::Output)
}

/// Makes a new log of an archive.
pub fn restore(archive: &Path, to: &Path) -> Result<(), Failure> {
    let mut bytes = Vec::new();
    if archive == Path::new(STANDARD) {
        std::io::stdin().lock().read_to_end(&mut bytes).map_err(Failure::Input)?;
    } else {
        bytes = std::fs::read(archive).map_err(|error| Failure::File(archive.into(), error.to_string()))?;
    }
    // A signal waits until the log is whole, or given up and removed.
    let signals = Signals::catch().map_err(Failure::Input)?;
    match Store::restore(&bytes, to) {
        Err(error @ Error::NoArchive(_)) => Err(Failure::File(archive.into(), error.to_string())),
        Err(error) => Err(Failure::of_making(to, error)),
        Ok(()) => {
            signals.end();
            Ok(())
        }
    }
}
