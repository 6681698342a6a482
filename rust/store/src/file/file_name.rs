//! The names of files: which cannot be a file's, and how a file gets one that no other has.

use crate::Error;
use std::ffi::{CString, c_char, c_int, c_uint};
use std::io;
use std::os::unix::ffi::OsStrExt;
use std::path::Path;

unsafe extern "C" {
    fn renameat2(folder: c_int, from: *const c_char, other: c_int, to: *const c_char, flags: c_uint) -> c_int;
}

/// The folder that the process is in.
const AT_FDCWD: c_int = -100;
/// Has a rename fail where there is a file of the new name.
const RENAME_NOREPLACE: c_uint = 1;
/// The errors of a kernel, and of a file system, that know no such rename.
const UNKNOWN: [i32; 2] = [38, 22];

/// Refuses `x/`, `x/.` and `x/..`: SQLite would make the file `x` of the first two.
pub(crate) fn is_of_a_file(path: &Path) -> Result<(), Error> {
    match path.as_os_str().as_bytes().rsplit(|&byte| byte == b'/').next() {
        Some(b"" | b"." | b"..") => Err(Error::File("its name is that of a folder".into())),
        _ => Ok(()),
    }
}

/// Gives a file another name, which no file has, in the same folder.
pub(crate) fn rename_new(from: &Path, to: &Path) -> io::Result<()> {
    let text = |path: &Path| CString::new(path.as_os_str().as_bytes()).map_err(io::Error::from);
    let (old, new) = (text(from)?, text(to)?);
    // SAFETY: both names end with a zero byte.
    if unsafe { renameat2(AT_FDCWD, old.as_ptr(), AT_FDCWD, new.as_ptr(), RENAME_NOREPLACE) } == 0 {
        return Ok(());
    }
    let error = io::Error::last_os_error();
    if !error.raw_os_error().is_some_and(|code| UNKNOWN.contains(&code)) {
        return Err(error);
    }
    // An empty file holds the name for a plain rename.
    std::fs::File::create_new(to)?;
    std::fs::rename(from, to).inspect_err(|_| drop(std::fs::remove_file(to)))
}
