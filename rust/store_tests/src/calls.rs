//! The system calls with which SQLite writes, made to fail, to wait, or to be recorded.
//!
//! SQLite finds these functions of the program before those of the C library. They do the same, unless told otherwise.

use std::ffi::{CStr, OsStr, c_char, c_int, c_long, c_uint, c_void};
use std::os::unix::ffi::OsStrExt;
use std::path::PathBuf;
use std::sync::Mutex;
use std::sync::atomic::{AtomicBool, AtomicU64, Ordering};
use std::time::Duration;

unsafe extern "C" {
    fn syscall(number: c_long, ...) -> c_long;
    fn __errno_location() -> *mut c_int;
}

const SYS_PWRITE64: c_long = 18;
const SYS_FSYNC: c_long = 74;
const SYS_FDATASYNC: c_long = 75;
const SYS_FTRUNCATE: c_long = 77;
const SYS_UNLINK: c_long = 87;
const SYS_RENAMEAT2: c_long = 316;

/// An error of the disk.
pub const EIO: c_int = 5;
/// The file system does not know how.
pub const EINVAL: c_int = 22;
/// No space is left on the disk.
pub const ENOSPC: c_int = 28;

/// Whether calls are counted at all.
static COUNTING: AtomicBool = AtomicBool::new(false);
/// How many were made since counting began.
static CALLS: AtomicU64 = AtomicU64::new(0);
/// Which of them fails, from 1; 0 for none.
static FAILS: AtomicU64 = AtomicU64::new(0);
/// Past which offset nothing can be written; 0 for no such limit.
static SIZE_LIMIT: AtomicU64 = AtomicU64::new(0);
/// How many microseconds a sync takes longer.
static SYNC_DELAY: AtomicU64 = AtomicU64::new(0);
/// Called before the first write after it was set.
static BEFORE_WRITE: Mutex<Option<Box<dyn FnOnce() + Send>>> = Mutex::new(None);
/// Whether there is no rename that fails where the new name is taken.
static NO_RENAME: AtomicBool = AtomicBool::new(false);
/// What was done to files since it was set.
static TRACE: Mutex<Option<Vec<Done>>> = Mutex::new(None);

/// What a call did to a file or a folder.
#[derive(Clone, Debug, PartialEq, Eq)]
pub struct Done {
    /// Its name.
    pub file: PathBuf,
    /// What was done.
    pub what: What,
}

/// What was done to a file.
#[derive(Clone, Debug, PartialEq, Eq)]
pub enum What {
    /// These bytes were written at this offset.
    Written(u64, Vec<u8>),
    /// It was given this length.
    Cut(u64),
    /// All of it reached the disk.
    Synced,
    /// Its name was taken away.
    Removed,
    /// It was given this name in place of its own.
    Renamed(PathBuf),
}

/// Notes what `work` has done to files. `work` gets a way to take what was done since it last asked.
pub fn traced<T>(work: impl FnOnce(&dyn Fn() -> Vec<Done>) -> T) -> T {
    let trace = || TRACE.lock().expect("nothing panics with it");
    *trace() = Some(Vec::new());
    let result = work(&|| trace().as_mut().map(std::mem::take).unwrap_or_default());
    *trace() = None;
    result
}

/// Notes what was done to an open file, where that is asked for.
fn note(file: c_int, what: impl FnOnce() -> What) {
    let name = || std::fs::read_link(format!("/proc/self/fd/{file}")).expect("an open file");
    note_name(name, what);
}

/// Notes what was done to the file of a name.
fn note_name(file: impl FnOnce() -> PathBuf, what: impl FnOnce() -> What) {
    if let Some(trace) = TRACE.lock().expect("nothing panics with it").as_mut() {
        trace.push(Done { file: file(), what: what() });
    }
}

/// A name as the C library is given it.
///
/// # Safety
///
/// It ends with a zero byte.
unsafe fn path(name: *const c_char) -> PathBuf {
    // SAFETY: by the contract.
    OsStr::from_bytes(unsafe { CStr::from_ptr(name) }.to_bytes()).into()
}

/// Has no rename fail where the new name is taken: there are file systems that know no such rename.
pub fn without_rename<T>(work: impl FnOnce() -> T) -> T {
    NO_RENAME.store(true, Ordering::SeqCst);
    let result = work();
    NO_RENAME.store(false, Ordering::SeqCst);
    result
}

/// Counts the calls that `work` makes to write, to sync and to cut a file short.
pub fn counted<T>(work: impl FnOnce() -> T) -> (T, u64) {
    failing(0, work)
}

/// Has one of the calls that `work` makes fail by an error of the disk: the one of this number, from 1. Says how many it
/// made.
pub fn failing<T>(number: u64, work: impl FnOnce() -> T) -> (T, u64) {
    CALLS.store(0, Ordering::SeqCst);
    FAILS.store(number, Ordering::SeqCst);
    COUNTING.store(true, Ordering::SeqCst);
    let result = work();
    COUNTING.store(false, Ordering::SeqCst);
    (result, CALLS.load(Ordering::SeqCst))
}

/// Has no file grow past this many bytes: the disk is full. 0 takes that back.
pub fn limit_size(bytes: u64) {
    SIZE_LIMIT.store(bytes, Ordering::SeqCst);
}

/// Has each sync take so much longer.
pub fn delay_sync(delay: Duration) {
    SYNC_DELAY.store(delay.as_micros() as u64, Ordering::SeqCst);
}

/// Has the next write call this first.
pub fn before_write(call: impl FnOnce() + Send + 'static) {
    *BEFORE_WRITE.lock().expect("nothing panics with it") = Some(Box::new(call));
}

/// Takes that back, where there was no write.
pub fn forget_before_write() {
    drop(BEFORE_WRITE.lock().expect("nothing panics with it").take());
}

/// Whether this call is the one to fail.
fn fails() -> bool {
    COUNTING.load(Ordering::SeqCst) && CALLS.fetch_add(1, Ordering::SeqCst) + 1 == FAILS.load(Ordering::SeqCst)
}

fn failed(error: c_int) -> c_int {
    // SAFETY: the C library's errno of this thread.
    unsafe { *__errno_location() = error };
    -1
}

/// Writes at an offset.
///
/// # Safety
///
/// As the C library's.
#[unsafe(no_mangle)]
pub unsafe extern "C" fn pwrite64(file: c_int, bytes: *const c_void, count: usize, offset: i64) -> isize {
    let call = BEFORE_WRITE.try_lock().ok().and_then(|mut call| call.take());
    if let Some(call) = call {
        call();
    }
    if fails() {
        return failed(EIO) as isize;
    }
    let limit = SIZE_LIMIT.load(Ordering::SeqCst);
    if limit > 0 && offset as u64 + count as u64 > limit {
        return failed(ENOSPC) as isize;
    }
    // SAFETY: by the contract.
    let written = unsafe { syscall(SYS_PWRITE64, file, bytes, count, offset) as isize };
    if let Ok(written) = usize::try_from(written) {
        // SAFETY: so many bytes were just read from there.
        let bytes = || unsafe { std::slice::from_raw_parts(bytes.cast(), written) };
        note(file, || What::Written(offset as u64, bytes().to_vec()));
    }
    written
}

/// Has what was written reach the disk.
///
/// # Safety
///
/// As the C library's.
#[unsafe(no_mangle)]
pub unsafe extern "C" fn fdatasync(file: c_int) -> c_int {
    if fails() {
        return failed(EIO);
    }
    let delay = SYNC_DELAY.load(Ordering::Relaxed);
    if delay > 0 {
        std::thread::sleep(Duration::from_micros(delay));
    }
    // SAFETY: by the contract.
    let failed = unsafe { syscall(SYS_FDATASYNC, file) as c_int };
    if failed == 0 {
        note(file, || What::Synced);
    }
    failed
}

/// Has a file and all about it reach the disk, as the store's copies do.
///
/// # Safety
///
/// As the C library's.
#[unsafe(no_mangle)]
pub unsafe extern "C" fn fsync(file: c_int) -> c_int {
    // SAFETY: by the contract.
    let failed = unsafe { syscall(SYS_FSYNC, file) as c_int };
    if failed == 0 {
        note(file, || What::Synced);
    }
    failed
}

/// Cuts a file short, or lengthens it.
///
/// # Safety
///
/// As the C library's.
#[unsafe(no_mangle)]
pub unsafe extern "C" fn ftruncate64(file: c_int, length: i64) -> c_int {
    if fails() {
        return failed(EIO);
    }
    // SAFETY: by the contract.
    let failed = unsafe { syscall(SYS_FTRUNCATE, file, length) as c_int };
    if failed == 0 {
        note(file, || What::Cut(length as u64));
    }
    failed
}

/// Takes a name away.
///
/// # Safety
///
/// As the C library's.
#[unsafe(no_mangle)]
pub unsafe extern "C" fn unlink(name: *const c_char) -> c_int {
    // SAFETY: by the contract.
    let failed = unsafe { syscall(SYS_UNLINK, name) as c_int };
    if failed == 0 {
        // SAFETY: by the contract.
        note_name(|| unsafe { path(name) }, || What::Removed);
    }
    failed
}

/// Gives a file another name.
///
/// # Safety
///
/// As the C library's.
#[unsafe(no_mangle)]
pub unsafe extern "C" fn renameat2(
    folder: c_int,
    from: *const c_char,
    other: c_int,
    to: *const c_char,
    flags: c_uint,
) -> c_int {
    if NO_RENAME.load(Ordering::SeqCst) {
        return failed(EINVAL);
    }
    // SAFETY: by the contract.
    let failed = unsafe { syscall(SYS_RENAMEAT2, folder, from, other, to, flags) as c_int };
    if failed == 0 {
        // SAFETY: by the contract.
        note_name(|| unsafe { path(from) }, || What::Renamed(unsafe { path(to) }));
    }
    failed
}
