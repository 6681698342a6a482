//! A session or the rows of a log as a page, or as a picture.

use crate::failure::Failure;
use crate::given::{self, Given};
use crate::page;
use crate::steps_of_log::{self, Part};
use session::NoSession;
use std::fs::File;
use std::io::{self, Read};
use std::path::{Path, PathBuf};
use trace::frames::{Frames, NoFrames};
use trace::{escape, svg};

/// What to draw, and where to.
#[derive(Debug, PartialEq, Eq)]
pub struct Drawing {
    /// The page's file; without it, standard output.
    pub page: Option<PathBuf>,
    /// Whether one static picture is wanted in place of a page.
    pub svg: bool,
    /// Which rows of a log are drawn.
    pub part: Part,
}

/// Draws the session or the log in this file.
pub fn draw(file: &Path, drawing: &Drawing) -> Result<(), Failure> {
    if let Some(page) = &drawing.page {
        page::fit(page)?;
    }
    let frames = match given::look(file)? {
        Given::Session(_) if !drawing.part.is_all() => {
            let why = "is a session: --client, --from and --to choose rows of a log";
            return Err(Failure::Arguments(format!("{} {why}", file.display())));
        }
        Given::Session(opened) => session(file, opened)?,
        Given::Log => Ok(steps_of_log::frames(file, drawing.part)?),
    };
    let name = escape::visible(file.file_name().unwrap_or_default().as_encoded_bytes());
    let text = if drawing.svg { svg::picture(&name, &frames) } else { trace::page::page(&name, &frames) };
    match &drawing.page {
        Some(page) => page::put(page, &text),
        None => crate::print(&text),
    }
}

/// The frames of a session, or why the file has none.
fn session(file: &Path, opened: File) -> Result<Result<Frames, NoSession>, Failure> {
    let input =
        bytes(opened).map_err(|error| Failure::Arguments(format!("{} cannot be read: {error}", file.display())))?;
    match Frames::of(&input) {
        Ok(frames) => Ok(Ok(frames)),
        Err(NoFrames::NoSession(reason)) => Ok(Err(reason)),
        Err(NoFrames::Library(error)) => Err(Failure::Program(error.to_string())),
    }
}

/// The file's bytes, as far as they can matter: one more than a session has is enough to be too long.
fn bytes(file: File) -> io::Result<Vec<u8>> {
    let mut bytes = Vec::new();
    file.take(limits::INPUT_LIMIT as u64 + 1).read_to_end(&mut bytes)?;
    Ok(bytes)
}
