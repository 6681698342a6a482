//! Whether standard input and output were open when the program was started.
//!
//! Rust opens /dev/null in place of closed ones, before `main`. So we look before that.

use std::ffi::c_int;
use std::sync::atomic::{AtomicBool, Ordering};

const F_GETFD: c_int = 1;

unsafe extern "C" {
    fn fcntl(file: c_int, command: c_int, ...) -> c_int;
}

static CLOSED: [AtomicBool; 2] = [AtomicBool::new(false), AtomicBool::new(false)];

/// The loader calls what is in this section before the program begins.
#[used]
#[unsafe(link_section = ".init_array")]
static LOOK: extern "C" fn() = look;

extern "C" fn look() {
    for (number, closed) in (0..).zip(&CLOSED) {
        // SAFETY: this call asks for flags, and takes no third argument.
        closed.store(unsafe { fcntl(number, F_GETFD) } == -1, Ordering::Relaxed);
    }
}

/// Whether there was no standard input.
pub fn input() -> bool {
    CLOSED[0].load(Ordering::Relaxed)
}

/// Whether there was no standard output.
pub fn output() -> bool {
    CLOSED[1].load(Ordering::Relaxed)
}
