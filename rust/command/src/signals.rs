//! The signals that end the program. They are noted, so that the present step is stored and the file closed first.

use std::ffi::{c_int, c_short, c_ulong, c_void};
use std::io::{self, ErrorKind, PipeReader, PipeWriter};
use std::os::fd::{AsFd, AsRawFd, BorrowedFd};
use std::sync::OnceLock;
use std::sync::atomic::{AtomicI32, Ordering};
use std::time::Duration;

const SIGHUP: c_int = 1;
const SIGINT: c_int = 2;
const SIGTERM: c_int = 15;
const SIG_DFL: usize = 0;
const SIG_IGN: usize = 1;
const POLLIN: c_short = 1;

#[repr(C)]
struct PollFd {
    file: c_int,
    events: c_short,
    found: c_short,
}

impl PollFd {
    fn of(file: BorrowedFd<'_>) -> Self {
        PollFd { file: file.as_raw_fd(), events: POLLIN, found: 0 }
    }
}

unsafe extern "C" {
    fn signal(number: c_int, handler: usize) -> usize;
    fn raise(number: c_int) -> c_int;
    fn poll(files: *mut PollFd, count: c_ulong, milliseconds: c_int) -> c_int;
    fn write(file: c_int, bytes: *const c_void, count: usize) -> isize;
    fn __errno_location() -> *mut c_int;
}

/// The signal that came; 0 before one did.
static CAME: AtomicI32 = AtomicI32::new(0);
/// What the handler writes to, so that waiting ends.
static WAKE: OnceLock<PipeWriter> = OnceLock::new();
/// Its number, for the handler.
static WAKE_NUMBER: AtomicI32 = AtomicI32::new(-1);

/// What waiting for input came to.
#[derive(Clone, Copy, Debug, PartialEq, Eq)]
pub enum Waited {
    /// There is something to read, or its end.
    Ready,
    /// Nothing came in the given time.
    Idle,
    /// The program is to end.
    Signal,
}

/// The signals, caught.
pub struct Signals {
    woken: PipeReader,
}

/// Notes a signal. A second one has its usual effect, at once.
extern "C" fn note(number: c_int) {
    CAME.store(number, Ordering::SeqCst);
    store::end_waiting();
    // SAFETY: these functions may be called in a handler; errno is as it was for what was interrupted.
    unsafe {
        let errno = *__errno_location();
        write(WAKE_NUMBER.load(Ordering::SeqCst), b"x".as_ptr().cast(), 1);
        signal(number, SIG_DFL);
        *__errno_location() = errno;
    }
}

impl Signals {
    /// Catches SIGINT, SIGTERM and SIGHUP from now on. One that the caller has ignored, as `nohup` does, stays ignored.
    pub fn catch() -> io::Result<Signals> {
        let (woken, wake) = io::pipe()?;
        WAKE_NUMBER.store(WAKE.get_or_init(|| wake).as_raw_fd(), Ordering::SeqCst);
        for number in [SIGINT, SIGTERM, SIGHUP] {
            // SAFETY: the handler only calls what a handler may.
            unsafe {
                if signal(number, note as *const () as usize) == SIG_IGN {
                    signal(number, SIG_IGN);
                }
            }
        }
        Ok(Signals { woken })
    }

    /// Whether one has come.
    pub fn came(&self) -> bool {
        CAME.load(Ordering::SeqCst) != 0
    }

    /// Waits until a signal comes, or this much time has passed, and says whether one came.
    pub fn pause(&self, time: Duration) -> io::Result<bool> {
        Ok(self.wait_for(&mut [PollFd::of(self.woken.as_fd())], Some(time))? == Waited::Signal)
    }

    /// Waits until there is something to read, a signal comes, or this much time has passed.
    pub fn wait(&self, input: BorrowedFd<'_>, time: Option<Duration>) -> io::Result<Waited> {
        self.wait_for(&mut [PollFd::of(input), PollFd::of(self.woken.as_fd())], time)
    }

    fn wait_for(&self, files: &mut [PollFd], time: Option<Duration>) -> io::Result<Waited> {
        let time = time.map_or(-1, |time| c_int::try_from(time.as_millis()).unwrap_or(c_int::MAX));
        loop {
            // SAFETY: there are as many.
            let found = unsafe { poll(files.as_mut_ptr(), files.len() as c_ulong, time) };
            let error = io::Error::last_os_error();
            match found {
                _ if self.came() => return Ok(Waited::Signal),
                0 => return Ok(Waited::Idle),
                1.. => return Ok(Waited::Ready),
                // Another signal, such as of a window that changed its size.
                _ if error.kind() == ErrorKind::Interrupted => {}
                _ => return Err(error),
            }
        }
    }

    /// Ends the program by the signal that came, as if it had not been caught: so a shell that has started it stops too.
    pub fn end(self) {
        let number = CAME.load(Ordering::SeqCst);
        if number != 0 {
            // SAFETY: no handler is left for it.
            unsafe {
                signal(number, SIG_DFL);
                raise(number);
            }
        }
    }
}
