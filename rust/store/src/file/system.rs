//! The functions of the C library that Rust's lacks and we use.

use std::ffi::{CStr, CString, c_char, c_int, c_uint};
use std::io;
use std::mem::MaybeUninit;
use std::os::unix::ffi::OsStrExt;
use std::path::Path;

/// What `statfs` tells of a file system: its kind first. It has 120 bytes.
#[repr(C)]
struct StatFs {
    kind: i64,
    rest: [u64; 31],
}

/// What `statx` tells of a file. It has 256 bytes.
#[repr(C)]
struct StatX {
    before: [u32; 4],
    links: u32,
    accounts: [u32; 2],
    mode: u16,
    spare: u16,
    inode: u64,
    between: [u64; 12],
    device: [u32; 2],
    after: [u64; 14],
}

unsafe extern "C" {
    fn statfs(path: *const c_char, into: *mut StatFs) -> c_int;
    fn statx(folder: c_int, path: *const c_char, flags: c_int, wanted: c_uint, into: *mut StatX) -> c_int;
    fn eaccess(path: *const c_char, mode: c_int) -> c_int;
    fn geteuid() -> u32;
}

const READ_AND_WRITE: c_int = 6;
/// The folder that the process is in.
const AT_FDCWD: c_int = -100;
/// A file's type, how many names it has, and its number.
const WANTED: c_uint = 0x1 | 0x4 | 0x100;
const TYPE: u16 = 0o170_000;
const FOLDER: u16 = 0o040_000;

/// What a name leads to.
pub(crate) struct Found {
    /// The two numbers of the device.
    pub device: [u32; 2],
    /// The file's number there.
    pub inode: u64,
    /// How many names it has.
    pub links: u32,
    pub is_folder: bool,
}

/// What a name leads to. Rust's function also asks when the file was changed, and since Linux 6.13 a file of which that
/// was asked notes the time of its next change more exactly: to ask it of a write-ahead log after each step made every
/// step slower.
pub(crate) fn find(path: &CStr) -> io::Result<Found> {
    let mut into = MaybeUninit::<StatX>::zeroed();
    // SAFETY: the path ends with a zero byte, and there is room for all that is filled. All zeros are a value too.
    let found = unsafe {
        if statx(AT_FDCWD, path.as_ptr(), 0, WANTED, into.as_mut_ptr()) != 0 {
            return Err(io::Error::last_os_error());
        }
        into.assume_init()
    };
    let StatX { device, inode, links, mode, .. } = found;
    Ok(Found { device, inode, links, is_folder: mode & TYPE == FOLDER })
}

/// The number of a file system's kind, where it can be had. The kernel's numbers have 32 bits.
pub(crate) fn file_system(path: &Path) -> Option<u32> {
    let path = CString::new(path.as_os_str().as_bytes()).ok()?;
    let mut into = MaybeUninit::<StatFs>::zeroed();
    // SAFETY: the path ends with a zero byte, and there is more room than is filled. All zeros are a value too.
    unsafe { (statfs(path.as_ptr(), into.as_mut_ptr()) == 0).then(|| into.assume_init().kind as u32) }
}

/// Whether this account may read and write a file. It is not opened for that: to close it would end the locks that the
/// process has on it.
pub(crate) fn may_read_and_write(path: &Path) -> bool {
    let path = CString::new(path.as_os_str().as_bytes());
    // SAFETY: the path ends with a zero byte.
    path.is_ok_and(|path| unsafe { eaccess(path.as_ptr(), READ_AND_WRITE) == 0 })
}

/// The number of this account.
pub(crate) fn account() -> u32 {
    // SAFETY: it has no conditions.
    unsafe { geteuid() }
}

/// This process, for people: its host, its program and its number.
pub(crate) fn process_name() -> String {
    let line = |file: &str| std::fs::read_to_string(file).map(|text| text.trim_end().to_owned());
    let host = line("/proc/sys/kernel/hostname").unwrap_or_default();
    let program = line("/proc/self/comm").unwrap_or_default();
    let mut name = format!("{host} {program}[{}]", std::process::id());
    while name.len() > crate::PROCESS_LIMIT {
        name.pop();
    }
    name
}
