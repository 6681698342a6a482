//! A whole run in one file for archive disks: written from a log, and restored to a log.
//!
//! An archive has the requests of a log, from which the library computes everything else: so it has no answers, words
//! and totals. To restore one is to take its steps once more. docs/REFERENCE.md has its format.

mod columns;
mod sections;

use crate::address::Address;
use crate::file::backup::{Part, of_the_copy};
use crate::file::upgrade::write_new;
use crate::file::{PRIVATE, file_name};
use crate::server::import::import;
use crate::{Error, Store};
use columns::Columns;
use std::os::unix::fs::MetadataExt;
use std::path::Path;

impl Store {
    /// The log as it is now, as the bytes of an archive.
    pub fn archive(&mut self) -> Result<Vec<u8>, Error> {
        let view = self.latest()?.log().view()?;
        let mut columns = Columns::of_fresh(view.client_count(), view.capacity());
        self.each_stored(&mut |row| columns.push(&row))?;
        columns.bytes()
    }

    /// Writes the log as it is now to a new archive, whole or not at all, and on the disk when this returns.
    ///
    /// [`Error::Exists`] and [`Error::File`] are of the archive; any other error is of the log.
    pub fn archive_to(&mut self, to: impl AsRef<Path>) -> Result<(), Error> {
        let to = to.as_ref();
        file_name::is_of_a_file(to)?;
        if to.symlink_metadata().is_ok() {
            return Err(Error::Exists);
        }
        let bytes = self.archive()?;
        // A log on a server has no mode.
        let mode = self.path().metadata().map_or(PRIVATE, |file| file.mode() & 0o666);
        let part = Part::create(to)?;
        std::fs::write(&part.0, bytes).and_then(|()| part.finish(to, mode)).map_err(of_the_copy)
    }

    /// Makes a new log of an archive, in a file or on a server, whole or not at all: its rows, times, processes and notes
    /// are those of the log that was archived, and the library takes each of its steps.
    ///
    /// [`Error::NoArchive`] is of the archive; any other error is of the log.
    pub fn restore(archive: &[u8], to: impl AsRef<Path>) -> Result<(), Error> {
        let columns = Columns::of_bytes(archive).map_err(Error::NoArchive)?;
        let fresh = columns.fresh();
        match Address::parse(to.as_ref())? {
            Address::File(path) => write_new(&path, fresh, PRIVATE, &mut |each| columns.replay(each)),
            Address::Server(address) => import(address, fresh, &mut |each| columns.replay(each)),
        }
    }
}
