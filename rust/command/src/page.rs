//! The file of a page, which is never half a page.

use crate::failure::Failure;
use std::ffi::OsString;
use std::fs::{self, File, OpenOptions};
use std::io::{self, Write};
use std::path::{Path, PathBuf};

/// Whether a page can be put there, as far as its name says. It is asked before anything is drawn.
pub fn fit(page: &Path) -> Result<(), Failure> {
    let shown = page.display();
    if page.is_dir() {
        return Err(Failure::Arguments(format!("{shown} is a folder")));
    }
    let folder = page.parent().filter(|folder| !folder.as_os_str().is_empty());
    match folder.filter(|folder| !folder.is_dir()) {
        Some(folder) => Err(Failure::Arguments(format!("there is no folder {} for {shown}", folder.display()))),
        None => Ok(()),
    }
}

/// Puts the text in this file: first beside it, and then in its place, so that the file is the old one or the new one.
pub fn put(page: &Path, text: &str) -> Result<(), Failure> {
    let why = |error: io::Error| format!("{} cannot be written: {error}", page.display());
    replace(page, text).map_err(|error| match error.kind() {
        io::ErrorKind::PermissionDenied => Failure::Arguments(why(error)),
        _ => Failure::Program(why(error)),
    })
}

fn replace(page: &Path, text: &str) -> io::Result<()> {
    let page = &target(page)?;
    let name = page.file_name().ok_or_else(|| io::Error::other("it names no file"))?;
    let mut part = OsString::from(".");
    part.push(name);
    part.push(format!(".{}.part", std::process::id()));
    let part = page.with_file_name(part);
    let written = write_new(&part, text).and_then(|()| fs::rename(&part, page));
    if written.is_err() {
        // Where it could not be made there is nothing to remove.
        let _ = fs::remove_file(&part);
    }
    written
}

/// The file to be replaced, which may be there and may be a link. A device or a pipe can't be.
fn target(page: &Path) -> io::Result<PathBuf> {
    match fs::metadata(page) {
        Ok(there) if !there.is_file() => Err(io::Error::other("it is no regular file")),
        Ok(_) => OpenOptions::new().append(true).open(page).and_then(|_| fs::canonicalize(page)),
        Err(error) if error.kind() == io::ErrorKind::NotFound => Ok(page.into()),
        Err(error) => Err(error),
    }
}

fn write_new(part: &Path, text: &str) -> io::Result<()> {
    let mut file = File::create_new(part)?;
    file.write_all(text.as_bytes())?;
    file.sync_all()
}
