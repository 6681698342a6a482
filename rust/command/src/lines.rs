//! Lines of steps from standard input, however long.

use crate::signals::Waited;
use limits::LINE_LIMIT;
use std::io::{BufRead, BufReader, ErrorKind, Read, Result};

/// What comes next.
#[derive(Clone, Debug, PartialEq, Eq)]
pub enum Next {
    /// A line without its end. One that is too long, or lacks its end, is given as an empty line, which is as bad.
    Line(Vec<u8>),
    /// Nothing for now: there was time for something else.
    Idle,
    /// Nothing any more.
    End,
}

/// Reads lines one by one, and keeps of each no more than tells that it is none.
pub struct Lines<R> {
    input: BufReader<R>,
    /// What is there of the next line.
    line: Vec<u8>,
    begun: bool,
}

impl<R: Read> Lines<R> {
    pub fn new(input: R) -> Self {
        Lines { input: BufReader::new(input), line: Vec::new(), begun: false }
    }

    /// The next line, as soon as its end is there. `wait` is called before anything is read that may not be there yet.
    pub fn next(&mut self, mut wait: impl FnMut() -> Result<Waited>) -> Result<Next> {
        loop {
            if self.input.buffer().is_empty() {
                match wait()? {
                    Waited::Ready => {}
                    Waited::Idle => return Ok(Next::Idle),
                    Waited::Signal => return Ok(Next::End),
                }
            }
            let bytes = match self.input.fill_buf() {
                Err(error) if error.kind() == ErrorKind::Interrupted => continue,
                bytes => bytes?,
            };
            if bytes.is_empty() {
                let begun = std::mem::take(&mut self.begun);
                return Ok(if begun { Next::Line(Vec::new()) } else { Next::End });
            }
            self.begun = true;
            let end = bytes.iter().position(|&byte| byte == b'\n');
            let part = &bytes[..end.unwrap_or(bytes.len())];
            let room = LINE_LIMIT + 1 - self.line.len();
            self.line.extend_from_slice(&part[..part.len().min(room)]);
            let used = end.map_or(bytes.len(), |end| end + 1);
            self.input.consume(used);
            if end.is_some() {
                return Ok(Next::Line(self.whole()));
            }
        }
    }

    fn whole(&mut self) -> Vec<u8> {
        self.begun = false;
        let line = std::mem::take(&mut self.line);
        if line.len() > LINE_LIMIT { Vec::new() } else { line }
    }
}

#[cfg(test)]
mod tests {
    use super::*;

    /// Gives so many bytes at a time.
    struct Slow<'a>(&'a [u8], usize);

    impl Read for Slow<'_> {
        fn read(&mut self, room: &mut [u8]) -> Result<usize> {
            let count = self.1.min(room.len());
            self.0.read(&mut room[..count])
        }
    }

    /// What comes of this text, so many bytes at a time, with an idle moment between them.
    fn lines(text: &str, at_a_time: usize) -> Vec<String> {
        let mut lines = Lines::new(Slow(text.as_bytes(), at_a_time));
        let (mut all, mut idle) = (Vec::new(), false);
        loop {
            let wait = || {
                idle = !idle;
                Ok(if idle { Waited::Idle } else { Waited::Ready })
            };
            match lines.next(wait).unwrap() {
                Next::Line(line) => all.push(String::from_utf8(line).unwrap()),
                Next::Idle => {}
                Next::End => return all,
            }
        }
    }

    #[test]
    fn ends_and_lengths() {
        let longest = "W 255 18446744073709551615";
        let text = format!("B 0\n\n{longest}\n{longest}0\n{}\nF 0\r\nN 1", "9".repeat(100_000));
        for at_a_time in [1, 2, 3, 26, 27, 28, 8192] {
            assert_eq!(lines(&text, at_a_time), ["B 0", "", longest, "", "", "F 0\r", ""]);
            assert_eq!(lines("", at_a_time), [""; 0]);
            assert_eq!(lines("\n", at_a_time), [""]);
        }
    }

    // Ten million bytes, of which nearly all pass by.
    #[test]
    fn little_is_kept() {
        let input = std::io::repeat(b'W').take(10_000_000).chain(&b"\nB 0\n"[..]);
        let mut lines = Lines::new(input);
        let mut next = || lines.next(|| Ok(Waited::Ready)).unwrap();
        let Next::Line(line) = next() else { panic!("no line") };
        assert!(line.is_empty() && line.capacity() <= 64);
        assert_eq!(next(), Next::Line(b"B 0".to_vec()));
        assert_eq!(next(), Next::End);
    }

    // A signal ends the input, and what was begun of a line is no line.
    #[test]
    fn a_signal() {
        let mut lines = Lines::new(&b"B 0\nF 0"[..]);
        let mut waits = [Waited::Ready, Waited::Signal].into_iter();
        let mut next = || lines.next(|| Ok(waits.next().unwrap())).unwrap();
        assert_eq!(next(), Next::Line(b"B 0".to_vec()));
        assert_eq!(next(), Next::End);
    }
}
