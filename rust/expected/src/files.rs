//! The files of the repository that hold expected outputs.

use crate::{histories, session, total};
use std::fs;
use std::io;
use std::path::{Path, PathBuf};

/// A file, and what the model says that it holds.
pub struct Expected {
    /// The file's path, from the root of the repository.
    pub file: PathBuf,
    /// What it should hold.
    pub text: String,
}

/// The root of the repository.
pub fn root() -> &'static Path {
    Path::new(concat!(env!("CARGO_MANIFEST_DIR"), "/../.."))
}

/// The names of the inputs of the program `inputs`, in its order.
pub fn input_names() -> io::Result<Vec<String>> {
    let names = fs::read_to_string(root().join("crates/inputs/args"))?;
    Ok(names.lines().map(String::from).collect())
}

/// An input of the program `inputs`.
pub fn input(name: &str) -> io::Result<Vec<u8>> {
    fs::read(root().join("crates/inputs/data").join(name))
}

/// What one of the programs prints for an input.
fn printed(program: fn(&[u8]) -> String, input: impl AsRef<Path>, file: impl Into<PathBuf>) -> io::Result<Expected> {
    let text = program(&fs::read(root().join(input))?);
    Ok(Expected { file: file.into(), text })
}

fn all_inputs() -> io::Result<Expected> {
    let mut text = String::new();
    for name in input_names()? {
        let input = input(&name)?;
        text += &format!("== {name}\n{}-- total\n{}", session::transcript(&input), total::output(&input));
    }
    Ok(Expected { file: "crates/inputs/stdout".into(), text })
}

/// Every kept output.
pub fn all() -> io::Result<Vec<Expected>> {
    let mut all = vec![
        all_inputs()?,
        printed(session::transcript, "crates/session_program/stdin", "crates/session_program/stdout")?,
        printed(total::output, "crates/total_program/stdin", "crates/total_program/stdout")?,
        // The C example takes the same session and prints it in the same way.
        printed(session::transcript, "crates/session_program/stdin", "examples/c/session.out")?,
        Expected { file: "crates/histories/stdout".into(), text: histories::counts() },
    ];
    let mut names: Vec<_> = fs::read_dir(root().join("examples"))?.collect::<io::Result<_>>()?;
    names.sort_by_key(|entry| entry.file_name());
    for name in names.iter().map(|entry| Path::new("examples").join(entry.file_name())) {
        if name.extension().is_some_and(|extension| extension == "session") {
            all.push(printed(session::transcript, &name, name.with_extension("out"))?);
            all.push(printed(total::output, &name, name.with_extension("total"))?);
        }
    }
    Ok(all)
}
