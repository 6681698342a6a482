//! Processes of the system: which are alive, their parents and names; and signals.

use std::ffi::c_int;
use std::path::Path;

/// Has a process of the server give up what it does.
pub const SIGINT: c_int = 2;
/// Ends a process, which cannot prevent it.
pub const SIGKILL: c_int = 9;
/// Asks a process to end.
pub const SIGTERM: c_int = 15;

unsafe extern "C" {
    fn kill(process: c_int, signal: c_int) -> c_int;
}

/// Sends a signal to a process. One that is gone gets none.
pub fn signal(process: u32, signal: c_int) {
    // SAFETY: it takes two numbers.
    unsafe { kill(process as c_int, signal) };
}

/// Whether a process runs. One that has ended, and that its parent has not asked for, does not.
pub fn lives(process: u32) -> bool {
    let state = std::fs::read_to_string(format!("/proc/{process}/stat")).unwrap_or_default();
    state.rsplit(')').next().is_some_and(|rest| !rest.is_empty() && !rest.starts_with(" Z"))
}

/// The children of a process.
pub fn children(parent: u32) -> Vec<u32> {
    let text = std::fs::read_to_string(format!("/proc/{parent}/task/{parent}/children")).unwrap_or_default();
    text.split_whitespace().filter_map(|word| word.parse().ok()).collect()
}

/// What a process calls itself.
pub fn title(process: u32) -> String {
    let line = std::fs::read(format!("/proc/{process}/cmdline")).unwrap_or_default();
    String::from_utf8_lossy(&line).replace('\0', " ")
}

/// Whether a process works in this folder.
pub fn works_in(process: u32, folder: &Path) -> bool {
    std::fs::read_link(format!("/proc/{process}/cwd")).is_ok_and(|at| at == folder)
}
