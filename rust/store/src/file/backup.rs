//! A copy of a log's file, made while others write.
//!
//! A copy is renamed, and never linked. `renameat2` with `RENAME_NOREPLACE` gives the name only if no file has it, and
//! leaves one name; if the file system does not support it, an empty file holds the name for a plain rename.
//!
//! Which file a failed copy is blamed on. SQLite does not say which of the two failed. So the store checks the log: if
//! it is consistent, the copy is at fault.

use super::file_name::{self, rename_new};
use super::store::FileStore;
use crate::Error;
use sqlite::{Fault, Value};
use std::fs::{File, OpenOptions, Permissions};
use std::io::ErrorKind;
use std::os::unix::ffi::OsStrExt;
use std::os::unix::fs::{OpenOptionsExt, PermissionsExt};
use std::path::{Path, PathBuf};

impl FileStore {
    /// Writes the log as it is now to a new file.
    pub fn vacuum_into(&mut self, to: &Path) -> Result<(), Error> {
        file_name::is_of_a_file(to)?;
        if to.symlink_metadata().is_ok() {
            return Err(Error::Exists);
        }
        let part = Part::create(to)?;
        self.fill(&part.0)?;
        part.finish(to, self.mode_of_file()?).map_err(of_the_copy)
    }

    /// Has SQLite write the copy to an empty file. It does not say which of the two files failed.
    fn fill(&mut self, part: &Path) -> Result<(), Error> {
        let name = part.to_str().ok_or_else(|| Error::File("the name of the copy is no UTF-8".into()))?;
        let filled = self.guarded(|link| {
            let filled = link.engine.database.prepare("VACUUM INTO ?");
            Ok::<Result<(), Fault>, Error>(filled.and_then(|mut fill| fill.execute(&[Value::Text(name)])))
        })?;
        let Err(fault) = filled else { return Ok(()) };
        // A log that can be read to its end is not at fault.
        self.check_file()?;
        Err(Error::File(fault.to_string()))
    }
}

/// The file that becomes the copy. What has no other name goes with it.
pub(crate) struct Part(pub PathBuf);

impl Part {
    /// Makes an empty file that nobody else may read, beside the copy's name.
    pub fn create(to: &Path) -> Result<Part, Error> {
        // SQLite would take a name that begins with `file:` for more than a name.
        let here = Path::new(if to.as_os_str().as_bytes().starts_with(b"/") { "" } else { "." });
        for number in 0.. {
            let mut part = here.join(to).into_os_string();
            let more = if number == 0 { String::new() } else { format!("-{number}") };
            part.push(format!(".{}{more}.part", std::process::id()));
            match OpenOptions::new().write(true).create_new(true).mode(0o600).open(&part) {
                Ok(_) => return Ok(Part(part.into())),
                // Another process of this number was killed and left it, here or in another container.
                Err(error) if error.kind() == ErrorKind::AlreadyExists && number < 100 => {}
                Err(error) => return Err(of_the_copy(error)),
            }
        }
        unreachable!("some number is the last")
    }

    /// Has the copy reach the disk, and gives it its name and its mode.
    pub fn finish(self, to: &Path, mode: u32) -> std::io::Result<()> {
        let file = File::open(&self.0)?;
        file.set_permissions(Permissions::from_mode(mode))?;
        file.sync_all()?;
        rename_new(&self.0, to)?;
        let folder = to.parent().filter(|folder| !folder.as_os_str().is_empty()).unwrap_or(Path::new("."));
        File::open(folder)?.sync_all()
    }
}

impl Drop for Part {
    fn drop(&mut self) {
        for end in ["", "-journal", "-wal", "-shm"] {
            let mut file = self.0.clone().into_os_string();
            file.push(end);
            let _ = std::fs::remove_file(file);
        }
    }
}

pub(crate) fn of_the_copy(error: std::io::Error) -> Error {
    match error.kind() {
        ErrorKind::AlreadyExists => Error::Exists,
        _ => Error::File(error.to_string()),
    }
}
