//! A terminal that shows one frame after the other, and is restored at the end.

use std::ffi::{c_int, c_ulong};
use std::io::{self, Write};

const TIOCGWINSZ: c_ulong = 0x5413;

/// Keeps what is on the screen aside, hides the cursor, and has long lines be cut.
const BEGIN: &str = "\x1B[?1049h\x1B[?25l\x1B[?7l";
/// The opposite, in the opposite order.
const END: &str = "\x1B[?7h\x1B[?25h\x1B[?1049l";
/// Goes to the first line.
const HOME: &str = "\x1B[H";
/// Clears the rest of a line.
const CLEAR_LINE: &str = "\x1B[K";
/// Clears what is below.
const CLEAR_BELOW: &str = "\x1B[J";

/// The size of a terminal that does not tell its own.
const USUAL: Size = Size { lines: 24, columns: 80 };

#[repr(C)]
#[derive(Default)]
struct WindowSize {
    lines: u16,
    columns: u16,
    pixels: [u16; 2],
}

unsafe extern "C" {
    fn ioctl(file: c_int, request: c_ulong, ...) -> c_int;
}

/// How much a terminal shows.
#[derive(Clone, Copy, Debug, PartialEq, Eq)]
pub struct Size {
    pub lines: usize,
    pub columns: usize,
}

/// The terminal that standard output is. Dropping it leaves the terminal as it was.
pub struct Screen {
    shown: Option<(Size, String)>,
}

impl Screen {
    pub fn begin() -> io::Result<Self> {
        put(BEGIN)?;
        Ok(Screen { shown: None })
    }

    /// Whether the terminal has another size than when it was drawn last.
    pub fn has_other_size(&self) -> bool {
        self.shown.as_ref().is_some_and(|(shown, _)| *shown != size())
    }

    /// Shows this text in place of what is shown, by one write. Where it is the same, nothing is written.
    pub fn show(&mut self, text: &str) -> io::Result<()> {
        let now = (size(), text.to_owned());
        if self.shown.as_ref() != Some(&now) {
            put(&frame(text, now.0))?;
            self.shown = Some(now);
        }
        Ok(())
    }
}

impl Drop for Screen {
    fn drop(&mut self) {
        // A terminal that is gone needs nothing.
        let _ = put(END);
    }
}

fn put(text: &str) -> io::Result<()> {
    let mut output = io::stdout().lock();
    output.write_all(text.as_bytes())?;
    output.flush()
}

fn size() -> Size {
    let mut size = WindowSize::default();
    // SAFETY: the call fills the struct, which it has for itself.
    let told = unsafe { ioctl(1, TIOCGWINSZ, &raw mut size) } == 0;
    if !told || size.lines == 0 || size.columns == 0 {
        return USUAL;
    }
    Size { lines: size.lines.into(), columns: size.columns.into() }
}

/// The text as it is written: each line over the one that was there. What has no room is cut, and the last line says so.
fn frame(text: &str, size: Size) -> String {
    let count = text.lines().count();
    let mut lines: Vec<String> = text.lines().take(size.lines).map(String::from).collect();
    if count > size.lines {
        let more = count - size.lines + 1;
        lines[size.lines - 1] = format!("({more} more lines: the terminal has {})", size.lines);
    }
    let lines: Vec<String> = lines.iter().map(|line| cut(line, size.columns) + CLEAR_LINE).collect();
    format!("{HOME}{}{CLEAR_BELOW}", lines.join("\r\n"))
}

/// As much of a line as there is room for. What a terminal would obey is none of it.
fn cut(line: &str, columns: usize) -> String {
    let shown = |character: char| if character.is_control() { char::REPLACEMENT_CHARACTER } else { character };
    line.chars().take(columns).map(shown).collect()
}

#[cfg(test)]
mod tests {
    use super::*;

    #[test]
    fn a_frame_is_cut() {
        let size = |lines, columns| Size { lines, columns };
        assert_eq!(frame("ab\n\ncde\n", size(3, 2)), "\x1B[Hab\x1B[K\r\n\x1B[K\r\ncd\x1B[K\x1B[J");
        assert_eq!(frame("a\nb\nc\n", size(2, 9)), "\x1B[Ha\x1B[K\r\n(2 more l\x1B[K\x1B[J");
        assert_eq!(frame("", size(2, 9)), "\x1B[H\x1B[J");
        assert_eq!(frame("a\x1B[2Jb\u{9B}", size(1, 9)), "\x1B[Ha\u{fffd}[2Jb\u{fffd}\x1B[K\x1B[J");
    }
}
