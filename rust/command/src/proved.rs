//! Starts a proved program, which is written in Rattle, on a file or on standard input.

use crate::closed;
use crate::failure::Failure;
use std::fs::File;
use std::io::{self, Read};
use std::os::unix::process::ExitStatusExt;
use std::path::PathBuf;
use std::process::{Child, Command, ExitCode, ExitStatus, Stdio};

/// Runs the program of this name. Without a file it reads standard input, all of which is the program's.
pub fn run(name: &str, file: Option<File>) -> Result<ExitCode, Failure> {
    let input = match file {
        Some(file) => Stdio::from(file),
        None if closed::input() => {
            return Err(Failure::Arguments("standard input is closed, and no FILE is named".into()));
        }
        None => Stdio::inherit(),
    };
    let program = place(name);
    let child = Command::new(&program).stdin(input).stderr(Stdio::piped()).spawn();
    let (status, said) = child.and_then(ended).map_err(|error| {
        Failure::Program(format!("{} cannot be started: {error}; install cindrolf again", program.display()))
    })?;
    // A program that could not read or write says so on standard error, and ends with 1. If the reader of its output has
    // gone away, nobody wants to hear it.
    match said.trim_end() {
        said if said.is_empty() || said.contains("kind: BrokenPipe") => Ok(code(status)),
        said => Err(Failure::Program(said.into())),
    }
}

/// Where the program is, from the folder that this one is in.
fn place(name: &str) -> PathBuf {
    let own = std::env::current_exe().unwrap_or_default();
    let prefix = own.ancestors().nth(2).unwrap_or(&own);
    prefix.join("libexec/cindrolf").join(name)
}

/// Its status, and what it said.
fn ended(mut child: Child) -> io::Result<(ExitStatus, String)> {
    let mut said = Vec::new();
    if let Some(mut errors) = child.stderr.take() {
        errors.read_to_end(&mut said)?;
    }
    Ok((child.wait()?, String::from_utf8_lossy(&said).into_owned()))
}

/// The status as a shell gives it: above 128 for a program that a signal ended.
fn code(status: ExitStatus) -> ExitCode {
    let number = status.code().unwrap_or_else(|| 128 + status.signal().unwrap_or(0));
    ExitCode::from(u8::try_from(number).unwrap_or(1))
}
