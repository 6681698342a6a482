//! An archive as a shared object: each has its own functions, though all have the same names.

use std::ffi::{CStr, CString, c_char, c_int, c_void};
use std::os::unix::ffi::OsStrExt;
use std::path::{Path, PathBuf};

// They are in the C library itself.
unsafe extern "C" {
    fn dlopen(name: *const c_char, flags: c_int) -> *mut c_void;
    fn dlsym(object: *mut c_void, name: *const c_char) -> *mut c_void;
    fn dlerror() -> *const c_char;
}

/// RTLD_NOW, without RTLD_GLOBAL: no other object is given these functions.
const NOW: c_int = 2;

/// A shared object that is loaded, and stays so.
pub struct Object {
    path: PathBuf,
    handle: *mut c_void,
}

impl Object {
    /// Loads it.
    pub fn open(path: &Path) -> Result<Self, String> {
        let name = CString::new(path.as_os_str().as_bytes()).map_err(|error| error.to_string())?;
        // Both take C strings, and the object is never closed.
        let handle = unsafe { dlopen(name.as_ptr(), NOW) };
        if handle.is_null() {
            let why = unsafe { CStr::from_ptr(dlerror()) };
            return Err(format!("{} can't be loaded: {}", path.display(), why.to_string_lossy()));
        }
        Ok(Object { path: path.into(), handle })
    }

    /// The function of this name, if it has one.
    pub fn find(&self, name: &CStr) -> Option<*mut c_void> {
        let found = unsafe { dlsym(self.handle, name.as_ptr()) };
        (!found.is_null()).then_some(found)
    }

    /// The function of this name, or that there is none.
    pub fn needed(&self, name: &CStr) -> Result<*mut c_void, String> {
        self.find(name).ok_or(format!("{} has no function {}", self.path.display(), name.to_string_lossy()))
    }
}
