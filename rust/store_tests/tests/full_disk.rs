//! A log on a small file system that is full, if one can be mounted.

use std::process::Command;
use store_tests::scratch::Scratch;

// The program says itself that it is skipped, and why.
#[test]
fn a_full_file_system() {
    let room = Scratch::new();
    let status = Command::new(env!("CARGO_BIN_EXE_full_disk")).arg(room.folder()).status().unwrap();
    assert!(matches!(status.code(), Some(0 | 77)), "{status}");
}
