//! A test that cannot run here says so by its name, although the test runner captures output.

use std::io::Write;

/// Says that this test was skipped, and why.
pub fn skipped(test: &str, why: &str) {
    // In one piece, so that what the test runner says does not come in between.
    let _ = std::io::stderr().write_all(format!("SKIPPED: {test}: {}\n", why.trim_end()).as_bytes());
}
