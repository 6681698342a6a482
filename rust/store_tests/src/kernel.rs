//! What the kernel tells SQLite and the store: a read that fails, and a file system of another kind. As with the calls of
//! `calls`, these functions are found before those of the C library. What is set counts for the thread that sets it.

use std::cell::Cell;
use std::ffi::{c_char, c_int, c_long, c_void};

unsafe extern "C" {
    fn syscall(number: c_long, ...) -> c_long;
    fn __errno_location() -> *mut c_int;
}

const SYS_PREAD64: c_long = 17;
const SYS_STATFS: c_long = 137;
const EINVAL: c_int = 22;

thread_local! {
    /// How many reads still succeed before one fails.
    static READS_LEFT: Cell<Option<u64>> = const { Cell::new(None) };
    static KIND: Cell<Option<i64>> = const { Cell::new(None) };
}

/// Has one of the reads that `work` makes fail: the one of this number, from 1. Says whether there were so many.
pub fn failing_read<T>(number: u64, work: impl FnOnce() -> T) -> (T, bool) {
    READS_LEFT.set(Some(number - 1));
    let result = work();
    (result, READS_LEFT.take().is_none())
}

/// Has every file system be of this kind while `work` is done.
pub fn with_file_system<T>(kind: i64, work: impl FnOnce() -> T) -> T {
    KIND.set(Some(kind));
    let result = work();
    KIND.set(None);
    result
}

/// Reads at an offset.
///
/// # Safety
///
/// As the C library's.
#[unsafe(no_mangle)]
pub unsafe extern "C" fn pread64(file: c_int, into: *mut c_void, count: usize, offset: i64) -> isize {
    match READS_LEFT.get() {
        Some(0) => {
            READS_LEFT.set(None);
            // SAFETY: the C library's errno of this thread.
            unsafe { *__errno_location() = EINVAL };
            return -1;
        }
        left => READS_LEFT.set(left.map(|left| left - 1)),
    }
    // SAFETY: by the contract.
    unsafe { syscall(SYS_PREAD64, file, into, count, offset) as isize }
}

/// Tells of a file system, first of which kind it is.
///
/// # Safety
///
/// As the C library's.
#[unsafe(no_mangle)]
pub unsafe extern "C" fn statfs(path: *const c_char, into: *mut i64) -> c_int {
    // SAFETY: by the contract.
    let code = unsafe { syscall(SYS_STATFS, path, into) as c_int };
    if let Some(kind) = KIND.get()
        && code == 0
    {
        // SAFETY: as above; it was just filled.
        unsafe { *into = kind };
    }
    code
}
