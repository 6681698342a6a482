//! A new file made from the rows of another log: of a file of the earlier format, or of a server.

use super::backup::{Part, of_the_copy};
use super::file_name;
use super::schema::Format;
use super::store::FileStore;
use crate::Error;
use crate::journal::{EachRow, FIRST_ROW};
use crate::kept::Kept;
use cindrolf::Capacity;
use std::path::Path;

/// What gives the rows that are copied.
pub(crate) type Source<'a> = dyn FnMut(&mut EachRow<'_>) -> Result<(), Error> + 'a;

/// Writes rows to a new file, whole or not at all, which others may use as this mode says.
pub(crate) fn write_new(to: &Path, fresh: (u64, Capacity), mode: u32, source: &mut Source<'_>) -> Result<(), Error> {
    file_name::is_of_a_file(to)?;
    if to.symlink_metadata().is_ok() {
        return Err(Error::Exists);
    }
    let part = Part::create(to)?;
    let mut new = FileStore::create(&part.0, fresh.0, fresh.1)?;
    new.guarded(|link| {
        link.engine.begin.execute(&[])?;
        let mut known = link.known();
        source(&mut |row| {
            known = link.engine.insert_row(known, &row)?;
            Ok(())
        })?;
        link.engine.commit.execute(&[]).map_err(Error::of_commit)
    })?;
    if let Some(wrong) = new.check_file()?.wrong.first() {
        return Err(Error::Damaged(wrong.to_string()));
    }
    new.end()?;
    part.finish(to, mode).map_err(of_the_copy)
}

impl FileStore {
    /// Writes a log of the earlier format to a new file with the same rows.
    pub fn upgrade_file(&mut self, to: &Path) -> Result<(), Error> {
        let (clients, capacity) = {
            let view = self.latest()?.log().view()?;
            (view.client_count(), view.capacity())
        };
        let is_old = self.guarded(|link| Ok(link.engine.format == Format::Old))?;
        if !is_old && to.symlink_metadata().is_err() {
            return Err(Error::UpToDate);
        }
        let mode = self.mode_of_file()?;
        write_new(to, (clients, capacity), mode, &mut |each| self.read_rows(FIRST_ROW, each))
    }
}
