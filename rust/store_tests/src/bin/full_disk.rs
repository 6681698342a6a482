//! A log on a file system that is really full: mounts a small one on FOLDER, which only this process sees. Ends with
//! status 77 if mounting is not allowed.

use cindrolf::Capacity;
use std::ffi::{CString, c_char, c_int, c_ulong, c_void};
use std::io;
use std::os::unix::ffi::OsStrExt;
use std::path::Path;
use std::process::ExitCode;
use store::{Error, Store, Stored};

unsafe extern "C" {
    fn unshare(flags: c_int) -> c_int;
    fn getuid() -> u32;
    fn getgid() -> u32;
    fn mount(
        source: *const c_char,
        target: *const c_char,
        kind: *const c_char,
        flags: c_ulong,
        data: *const c_void,
    ) -> c_int;
}

const CLONE_NEWNS: c_int = 0x0002_0000;
const CLONE_NEWUSER: c_int = 0x1000_0000;
const MS_REC: c_ulong = 0x4000;
const MS_PRIVATE: c_ulong = 0x4_0000;

/// The file system's size, of which the ballast can be given back.
const SIZE: &str = "size=512k";
const BALLAST: usize = 128 << 10;

fn main() -> ExitCode {
    let Some(folder) = std::env::args_os().nth(1) else { return ExitCode::from(2) };
    let folder = Path::new(&folder);
    if let Err(error) = mounted(folder) {
        eprintln!("SKIPPED: a log on a full file system: no small one can be mounted here ({error})");
        return ExitCode::from(77);
    }
    match fill(folder).and_then(|()| create(folder)) {
        Ok(()) => ExitCode::SUCCESS,
        Err(why) => {
            eprintln!("full_disk: {why}");
            ExitCode::FAILURE
        }
    }
}

fn checked(code: c_int) -> io::Result<()> {
    if code == 0 { Ok(()) } else { Err(io::Error::last_os_error()) }
}

/// Mounts a small file system on the folder, for this process alone.
fn mounted(folder: &Path) -> io::Result<()> {
    // SAFETY: these functions take numbers.
    let (user, group) = unsafe { (getuid(), getgid()) };
    // SAFETY: as above; the process has one thread.
    if checked(unsafe { unshare(CLONE_NEWNS) }).is_err() {
        // Who is nobody special may be so in a space of its own.
        checked(unsafe { unshare(CLONE_NEWUSER | CLONE_NEWNS) })?;
        std::fs::write("/proc/self/setgroups", "deny")?;
        std::fs::write("/proc/self/uid_map", format!("0 {user} 1"))?;
        std::fs::write("/proc/self/gid_map", format!("0 {group} 1"))?;
    }
    let folder = CString::new(folder.as_os_str().as_bytes())?;
    let size = CString::new(SIZE)?;
    let none = std::ptr::null();
    // SAFETY: the texts end with a zero byte.
    unsafe {
        checked(mount(none, c"/".as_ptr(), none, MS_REC | MS_PRIVATE, std::ptr::null()))?;
        checked(mount(c"tmpfs".as_ptr(), folder.as_ptr(), c"tmpfs".as_ptr(), 0, size.as_ptr().cast()))
    }
}

/// A log for one client that may write.
fn writable(file: &Path) -> Result<Store, Error> {
    let mut store = Store::create(file, 1, Capacity::Large)?;
    store.become_leader(0)?;
    store.fetch(0)?;
    store.create_ledger(0)?;
    let _ = store.append(0)?;
    Ok(store)
}

/// What was written, by its values.
#[derive(Default)]
struct Writes {
    stored: Vec<u64>,
    /// Those of which it is not known whether they are stored.
    unknown: Vec<u64>,
}

/// Writes until nothing fits, then there is room again.
fn fill(folder: &Path) -> Result<(), String> {
    let text = |error: Error| error.to_string();
    let ballast = folder.join("ballast");
    std::fs::write(&ballast, vec![1; BALLAST]).map_err(|error| error.to_string())?;
    let mut store = writable(&folder.join("run.db")).map_err(text)?;
    let mut writes = Writes::until_full(&mut store)?;
    writes.hold(&mut store)?;
    std::fs::remove_file(&ballast).map_err(|error| error.to_string())?;
    for value in 5_000..5_020 {
        store.write(0, value).map_err(|error| format!("with room again: {error}"))?;
        writes.stored.push(value);
    }
    writes.hold(&mut store)?;
    drop(store);
    let mut store = Store::open(folder.join("run.db")).map_err(text)?;
    writes.hold(&mut store)?;
    store.check().map(drop).map_err(text)
}

impl Writes {
    /// Until three fail in a row: not even what is in the write-ahead log finds room in the file.
    fn until_full(store: &mut Store) -> Result<Writes, String> {
        let (mut writes, mut failed) = (Writes::default(), 0);
        for value in 0..4_000 {
            match store.write(0, value) {
                Ok(_) => (writes.stored.push(value), failed = 0).0,
                Err(error @ Error::Engine { .. }) => {
                    if error.stored() == Stored::Unknown {
                        writes.unknown.push(value);
                    }
                    failed += 1;
                }
                Err(error) => return Err(error.to_string()),
            }
            if failed == 3 && writes.stored.len() >= 20 {
                return Ok(writes);
            }
        }
        Err(format!("the disk was never full, or always: {} writes", writes.stored.len()))
    }

    /// Each that was answered is there, in order, and no other but those of which it is not known.
    fn hold(&self, store: &mut Store) -> Result<(), String> {
        let chain = store.latest().and_then(|latest| latest.chain()).map_err(|error| error.to_string())?;
        let known: Vec<u64> = chain.iter().copied().filter(|value| !self.unknown.contains(value)).collect();
        let count = self.stored.len();
        if known == self.stored {
            Ok(())
        } else {
            Err(format!("{count} writes were answered, and {known:?} are there"))
        }
    }
}

/// A log that finds no room is not created, and can be once there is room.
fn create(folder: &Path) -> Result<(), String> {
    let (file, ballast) = (folder.join("new.db"), folder.join("ballast"));
    // As much as fits.
    let mut rest = vec![1; 512 << 10];
    while std::fs::write(&ballast, &rest).is_err() && !rest.is_empty() {
        rest.truncate(rest.len().saturating_sub(4096));
    }
    if let Ok(_made) = Store::create(&file, 1, Capacity::Large) {
        return Err("a log was created on a full disk".into());
    }
    std::fs::remove_file(&ballast).map_err(|error| error.to_string())?;
    let mut store = writable(&file).map_err(|error| format!("with room again: {error}"))?;
    store.write(0, 1).map_err(|error| error.to_string())?;
    store.check().map(drop).map_err(|error| error.to_string())
}
