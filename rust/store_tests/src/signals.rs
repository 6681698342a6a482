//! Signals to other processes.

use std::ffi::c_int;
use std::io;
use std::process::Child;

/// Asks a process to end.
pub const SIGTERM: c_int = 15;
/// Has a process go on.
pub const SIGCONT: c_int = 18;
/// Stops a process, which keeps all that it holds.
pub const SIGSTOP: c_int = 19;

unsafe extern "C" {
    fn kill(process: c_int, signal: c_int) -> c_int;
}

/// Sends a signal to a child that was not waited for yet.
pub fn send(child: &Child, signal: c_int) -> io::Result<()> {
    // SAFETY: it takes two numbers.
    if unsafe { kill(child.id() as c_int, signal) } == 0 { Ok(()) } else { Err(io::Error::last_os_error()) }
}
