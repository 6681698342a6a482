//! Programs that a test starts, with a time limit.

use std::io::Read;
use std::process::{Command, Stdio};
use std::time::{Duration, Instant};

/// What a program did: whether it ended well, and what it said on standard output and standard error.
pub struct Ran {
    /// Whether it ended with status 0.
    pub well: bool,
    /// What it said.
    pub said: String,
}

/// Runs a program. None where it does not end in this time; then it is killed.
pub fn run(command: &mut Command, within: Duration) -> Option<Ran> {
    let mut child =
        command.stdin(Stdio::null()).stdout(Stdio::piped()).stderr(Stdio::piped()).spawn().expect("a program");
    let until = Instant::now() + within;
    let status = loop {
        match child.try_wait().expect("a child") {
            Some(status) => break status,
            None if Instant::now() < until => std::thread::sleep(Duration::from_millis(5)),
            None => {
                child.kill().expect("a child");
                child.wait().expect("a child");
                return None;
            }
        }
    };
    let mut said = String::new();
    child.stdout.take().expect("a pipe").read_to_string(&mut said).expect("a text");
    child.stderr.take().expect("a pipe").read_to_string(&mut said).expect("a text");
    Some(Ran { well: status.success(), said })
}
