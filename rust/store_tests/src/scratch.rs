//! A folder for the files of one test, removed at its end; and another account to use them from.

use std::path::{Path, PathBuf};
use std::sync::atomic::{AtomicU64, Ordering};

static MADE: AtomicU64 = AtomicU64::new(0);

/// A folder that is removed when this goes.
pub struct Scratch(PathBuf);

impl Scratch {
    /// A new folder below that for temporary files.
    pub fn new() -> Scratch {
        Scratch::below(&std::env::temp_dir())
    }

    /// A new folder in memory, where a sync takes no time, if there is such a place.
    pub fn in_memory() -> Scratch {
        let memory = Path::new("/dev/shm");
        if memory.is_dir() { Scratch::below(memory) } else { Scratch::new() }
    }

    /// A new folder below this one.
    pub fn below(folder: &Path) -> Scratch {
        let number = MADE.fetch_add(1, Ordering::Relaxed);
        let folder = folder.join(format!("cindrolf-{}-{number}", std::process::id()));
        std::fs::create_dir_all(&folder).unwrap_or_else(|error| panic!("{}: {error}", folder.display()));
        Scratch(folder)
    }

    /// A file in it.
    pub fn file(&self, name: &str) -> PathBuf {
        self.0.join(name)
    }

    /// The folder.
    pub fn folder(&self) -> &Path {
        &self.0
    }
}

impl Default for Scratch {
    fn default() -> Self {
        Scratch::new()
    }
}

impl Drop for Scratch {
    fn drop(&mut self) {
        let _ = std::fs::remove_dir_all(&self.0);
    }
}

unsafe extern "C" {
    fn syscall(number: i64, ...) -> i64;
}

/// Works as a user who is not root, so that the modes of files count. Only this thread changes.
pub fn as_a_user<T>(work: impl FnOnce() -> T) -> T {
    const SETRESUID: i64 = 117;
    const NOBODY: i64 = 65_534;
    // SAFETY: this sets the user of this thread. It fails where that is not root, whom modes bind anyway.
    unsafe { syscall(SETRESUID, -1_i64, NOBODY, -1_i64) };
    let result = work();
    // SAFETY: as above.
    unsafe { syscall(SETRESUID, -1_i64, 0_i64, -1_i64) };
    result
}
