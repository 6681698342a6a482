//! Why a command failed: its message and the exit status.

use crate::given;
use std::io;
use std::path::{Path, PathBuf};
use std::process::ExitCode;
use store::{Error, LockHolder, lock_holder};

/// Why a command was not done.
pub enum Failure {
    /// The arguments are wrong. The text says how, and what they should be.
    Arguments(String),
    /// The log in this file, or the disk that it is on.
    File(PathBuf, String),
    /// A program that this one has started, or something else that is neither a log nor an argument.
    Program(String),
    /// Standard input.
    Input(io::Error),
    /// Standard output.
    Output(io::Error),
    /// Standard output, and the line that could not be printed: a reply to what may be stored.
    Reply(String, io::Error),
}

impl Failure {
    /// A log that could not be opened or read.
    pub fn of_reading(file: &Path, error: Error) -> Self {
        let holder = holder(file, &error);
        let why = match error {
            // There was nothing to store.
            Error::Engine { fault, .. } => fault.to_string(),
            Error::Exists if given::is_address(file) => "there is a log of this name already".into(),
            Error::Missing if given::is_address(file) => "there is no log of this name: create it".into(),
            error => error.to_string(),
        };
        Failure::File(file.into(), why + &holder)
    }

    /// A file that could not be made.
    pub fn of_making(file: &Path, error: Error) -> Self {
        let folder = file.parent().filter(|folder| !folder.as_os_str().is_empty() && !given::is_address(file));
        match folder.filter(|folder| !folder.is_dir()) {
            Some(folder) => Failure::File(file.into(), format!("there is no folder {}", folder.display())),
            None => Self::of_reading(file, error),
        }
    }

    /// A change that gave no answer.
    pub fn of_change(file: &Path, error: Error) -> Self {
        Failure::File(file.into(), error.to_string() + &holder(file, &error))
    }

    /// Lines of steps that gave no answer, from this number on, and whether their steps are stored.
    pub fn of_lines(file: &Path, number: u64, lines: &[Vec<u8>], error: Error) -> Self {
        let lines = match lines {
            [line] => format!("line {number}, {}", String::from_utf8_lossy(line)),
            _ => format!("lines {number} to {}", number + lines.len() as u64 - 1),
        };
        Self::of_request(file, &lines, error)
    }

    /// A request that gave no answer, by what was asked for, and whether it is stored.
    pub fn of_request(file: &Path, asked: &str, error: Error) -> Self {
        let holder = holder(file, &error);
        let why = match error {
            Error::Engine { .. } | Error::Witness(_) | Error::Unknown { .. } => error.to_string(),
            error => format!("not stored: {error}"),
        };
        Failure::File(file.into(), format!("{asked}: {why}{holder}"))
    }

    /// A copy that was not made, by the file that is at fault.
    pub fn of_copy(file: &Path, to: &Path, error: Error) -> Self {
        match error {
            Error::Exists | Error::File(_) => Self::of_making(to, error),
            error => Self::of_reading(file, error),
        }
    }

    /// Says it on standard error, and gives the status. A reader that has gone away wants to hear nothing.
    pub fn report(self) -> ExitCode {
        match self {
            Failure::Arguments(text) => {
                eprintln!("cindrolf: {text}");
                return ExitCode::from(2);
            }
            Failure::File(file, why) => eprintln!("cindrolf: {}: {why}", file.display()),
            Failure::Program(why) => eprintln!("cindrolf: {why}"),
            Failure::Input(error) => eprintln!("cindrolf: standard input: {error}"),
            Failure::Output(error) | Failure::Reply(_, error) if error.kind() == io::ErrorKind::BrokenPipe => {}
            Failure::Output(error) => eprintln!("cindrolf: standard output: {error}"),
            Failure::Reply(line, error) => eprintln!("cindrolf: standard output: {error}; not printed: {line}"),
        }
        ExitCode::FAILURE
    }
}

/// Who holds the lock that was waited for, where it is known.
fn holder(file: &Path, error: &Error) -> String {
    let holder = if error.is_busy() { lock_holder(file) } else { None };
    let Some(LockHolder { process, name, stopped }) = holder else { return String::new() };
    let name = name.map_or(String::new(), |name| format!(" ({name})"));
    let stopped = if stopped { " and is stopped: continue it or end it" } else { "" };
    format!("; process {process}{name} holds it{stopped}")
}
