//! How a handle waits, with which name it stores rows, where it keeps its last row, and settings of the whole process.

use crate::failure::Failure;
use crate::handles::{Opaque, with};
use crate::memory::{path, text};
use limits::WAIT_LIMIT;
use std::ffi::{c_char, c_int};
use std::time::Duration;

/// The number of this interface, which the header has too.
#[unsafe(no_mangle)]
pub extern "C" fn cindrolf_store_version() -> u64 {
    const { number(env!("CINDROLF_STORE_VERSION")) }
}

const fn number(text: &str) -> u64 {
    match u64::from_str_radix(text, 10) {
        Ok(number) => number,
        Err(_) => panic!("the header has a version that is no number"),
    }
}

/// Has no call of this process wait longer than a second from now on. A handler of signals may call it.
#[unsafe(no_mangle)]
pub extern "C" fn cindrolf_store_end_waiting() {
    store::end_waiting();
}

/// A time that a call may wait. A longer one is taken for a mistake.
pub fn wait(milliseconds: u64) -> Result<Duration, Failure> {
    let time = Duration::from_millis(milliseconds);
    if time > Duration::from_secs(WAIT_LIMIT) {
        return Err(Failure::argument(format!("the time to wait is longer than {WAIT_LIMIT} seconds")));
    }
    Ok(time)
}

/// How long a call waits for another process, or for the server.
#[unsafe(no_mangle)]
pub unsafe extern "C" fn cindrolf_store_set_patience(store: *mut Opaque, milliseconds: u64) -> c_int {
    with(store, |store| {
        store.set_patience(wait(milliseconds)?);
        Ok(())
    })
}

/// The name under which rows are stored.
#[unsafe(no_mangle)]
pub unsafe extern "C" fn cindrolf_store_set_process_name(store: *mut Opaque, name: *const c_char) -> c_int {
    // SAFETY: by the header.
    with(store, |store| Ok(store.set_process_name(unsafe { text(name, "name") }?)?))
}

/// The file that keeps the last row.
#[unsafe(no_mangle)]
pub unsafe extern "C" fn cindrolf_store_keep_witness(store: *mut Opaque, file: *const c_char) -> c_int {
    // SAFETY: by the header.
    with(store, |store| Ok(store.keep_witness(unsafe { path(file, "file") }?)?))
}

#[cfg(test)]
mod tests {
    use super::*;
    use limits::{NOTE_LIMIT, PATH_LIMIT, PROCESS_LIMIT};

    const HEADER: &str = include_str!("../../../include/cindrolf_store.h");

    fn defined(name: &str) -> usize {
        let line = format!("#define CINDROLF_STORE_{name} ");
        let text = HEADER.lines().find_map(|text| text.strip_prefix(&line)).expect("a constant of the header");
        text.trim_start_matches("UINT64_C(").trim_end_matches(')').parse().expect("a number")
    }

    #[test]
    fn limits_of_the_header() {
        assert_eq!(defined("NOTE_LIMIT"), NOTE_LIMIT);
        assert_eq!(defined("PROCESS_LIMIT"), PROCESS_LIMIT);
        let most = defined("WAIT_LIMIT") as u64;
        assert!(wait(most).is_ok() && wait(most + 1).is_err());
        assert_eq!(defined("VERSION") as u64, cindrolf_store_version());
        // A message may name a file twice, and a row has a number of at most 19 digits.
        assert!(defined("MESSAGE_BYTES") > 2 * PATH_LIMIT);
        let longest = store::LastRow { number: i64::MAX, chain: u128::MAX };
        assert!(defined("ROW_BYTES") > longest.to_string().len());
    }
}
