//! Lists of scores, one a line, with one space between two of them.

use limits::READ_LINE_LIMIT;
use std::io::{self, BufRead, BufReader, ErrorKind, Read};

/// Why there is no list.
#[derive(Debug)]
pub enum NoList {
    /// There is nothing to read for now.
    Idle,
    /// The input could not be read.
    Input(io::Error),
    /// The input ends in the line.
    Cut,
    /// The line has something else than scores.
    Bad,
    /// The line is longer than any list.
    Long,
}

impl NoList {
    /// What is wrong with the line.
    pub fn why(&self) -> String {
        match self {
            NoList::Cut => "the input ends before the line does".into(),
            NoList::Long => format!("it has more than {READ_LINE_LIMIT} bytes"),
            _ => "a list is scores of 0 to 372, with one space between two of them, as '120 124 372'".into(),
        }
    }
}

/// The lists of an input, one after the other.
pub struct Lists<R> {
    input: BufReader<R>,
    line: Vec<u8>,
    /// How many lines were read.
    number: u64,
}

impl<R: Read> Lists<R> {
    pub fn new(input: R) -> Self {
        Lists { input: BufReader::new(input), line: Vec::new(), number: 0 }
    }

    /// Where the bytes come from.
    pub fn input(&mut self) -> &mut R {
        self.input.get_mut()
    }

    /// The number of the line that was read last, from 1.
    pub fn number(&self) -> u64 {
        self.number
    }

    /// The next list; none at the end of the input. An empty line is an empty list, which the log refuses.
    pub fn next(&mut self) -> Result<Option<Vec<u16>>, NoList> {
        let room = READ_LINE_LIMIT + 1 - self.line.len();
        let read = (&mut self.input).take(room as u64).read_until(b'\n', &mut self.line);
        read.map_err(|error| match error.kind() {
            ErrorKind::WouldBlock => NoList::Idle,
            _ => NoList::Input(error),
        })?;
        if self.line.is_empty() {
            return Ok(None);
        }
        self.number += 1;
        let mut line = std::mem::take(&mut self.line);
        match line.pop_if(|last| *last == b'\n') {
            Some(_) => list(&line).map(Some).ok_or(NoList::Bad),
            None if line.len() > READ_LINE_LIMIT => Err(NoList::Long),
            None => Err(NoList::Cut),
        }
    }
}

/// The scores in a line without its end.
fn list(line: &[u8]) -> Option<Vec<u16>> {
    if line.is_empty() {
        return Some(Vec::new());
    }
    let score = |digits| session::number(digits, u16::MAX.into()).map(|score| score as u16);
    line.split(|&byte| byte == b' ').map(score).collect()
}

#[cfg(test)]
mod tests {
    use super::*;

    #[test]
    fn lines() {
        let mut lists = Lists::new(&b"120 124 372\n\n0\n373\n"[..]);
        for (number, scores) in [(1, vec![120, 124, 372]), (2, vec![]), (3, vec![0]), (4, vec![373])] {
            assert_eq!((lists.next().unwrap(), lists.number()), (Some(scores), number));
        }
        assert_eq!(lists.next().unwrap(), None);
        for bad in ["1  2\n", " 1\n", "1 \n", "1,2\n", "01\n", "-1\n", "65536\n", "1\r\n", "x\n", "1.5\n"] {
            assert!(matches!(Lists::new(bad.as_bytes()).next(), Err(NoList::Bad)), "{bad:?}");
        }
        assert!(matches!(Lists::new(&b"1 2"[..]).next(), Err(NoList::Cut)));
        assert!(matches!(Lists::new(io::repeat(b'1')).next(), Err(NoList::Long)));
    }
}
