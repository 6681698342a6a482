//! How a connection waits for the lock of another.
//!
//! It sleeps for short random times, of 20 µs to 1 ms. SQLite's own waiting sleeps up to 100 ms at a time, and in a
//! trial with sixteen processes some got no turn in a second. Two file locks in a row were even fairer there, but they
//! have no deadline. No test here repeats that trial.

use std::ffi::{c_int, c_void};
use std::sync::atomic::{AtomicBool, Ordering};
use std::thread::sleep;
use std::time::{Duration, Instant};

/// The shortest sleep between two tries.
const SHORTEST: Duration = Duration::from_micros(20);
/// The longest one.
const LONGEST: Duration = Duration::from_millis(1);

/// How long a call still waits once the process is to end.
const LAST: Duration = Duration::from_secs(1);

/// Whether the process is to end.
static ENDING: AtomicBool = AtomicBool::new(false);

/// From now on no call of this process waits longer than a second for the lock of another, whatever its patience: use
/// it before the process ends. A signal handler may call it.
pub fn end_waiting() {
    ENDING.store(true, Ordering::Relaxed);
}

/// Whether the process is to end.
pub fn is_ending() -> bool {
    ENDING.load(Ordering::Relaxed)
}

/// How long a call waits now whose patience this is.
pub fn patience_now(patience: Duration) -> Duration {
    if is_ending() { patience.min(LAST) } else { patience }
}

/// Tries again after a random time, until its patience is over. SQLite's own handler sleeps up to 100 ms at a time, so
/// that with sixteen processes some got no write in a second.
pub struct Wait {
    patience: Duration,
    since: Instant,
    random: u64,
}

impl Wait {
    pub fn new(patience: Duration) -> Self {
        let since = Instant::now();
        // Processes that begin together take different times.
        let random = u64::from(std::process::id()) << 32 ^ since_epoch();
        Wait { patience, since, random }
    }

    pub fn set_patience(&mut self, patience: Duration) {
        self.patience = patience;
    }

    /// SQLite's busy handler: `calls` is how often it was called for this lock.
    ///
    /// # Safety
    ///
    /// `data` is the address of a `Wait` that nobody else uses meanwhile.
    pub unsafe extern "C" fn again(data: *mut c_void, calls: c_int) -> c_int {
        // SAFETY: by the contract.
        let wait = unsafe { &mut *data.cast::<Wait>() };
        if calls == 0 {
            wait.since = Instant::now();
        } else if wait.since.elapsed() >= wait.patience_now() {
            return 0;
        }
        sleep(wait.pause());
        1
    }

    fn patience_now(&self) -> Duration {
        patience_now(self.patience)
    }

    fn pause(&mut self) -> Duration {
        self.random = self.random.wrapping_mul(6_364_136_223_846_793_005).wrapping_add(1_442_695_040_888_963_407);
        let span = (LONGEST - SHORTEST).as_nanos() as u64;
        SHORTEST + Duration::from_nanos(((self.random >> 32) * span) >> 32)
    }
}

fn since_epoch() -> u64 {
    let now = std::time::SystemTime::now().duration_since(std::time::UNIX_EPOCH);
    now.map_or(0, |now| now.as_nanos() as u64)
}
