//! FASTQ records: four lines each, of which we keep the name and the scores of the bases.

use crate::printable::printable;
use limits::{NOTE_LIMIT, READ_LINE_LIMIT};
use std::io::{self, BufRead, BufReader, ErrorKind, Read};

/// The byte of quality 0.
const FIRST: u8 = b'!';
/// How many scores a unit of quality is.
const SCORES_A_UNIT: u16 = 4;
/// Bytes that are read at once.
const BUFFER: usize = 1 << 18;

/// What a line of a record is, in their order.
const LINES: [&str; 4] = ["name", "sequence", "line with +", "quality"];
const HEADER: usize = 0;
const SEQUENCE: usize = 1;
const PLUS: usize = 2;
const QUALITY: usize = 3;

/// A read: its name as it is noted, and the score of each base.
#[derive(Clone, Debug, PartialEq, Eq)]
pub struct Record {
    pub name: String,
    pub scores: Vec<u16>,
}

/// Why there is no record.
#[derive(Debug)]
pub enum NoRecord {
    /// There is nothing to read for now.
    Idle,
    /// The input could not be read.
    Input(io::Error),
    /// What is there is none.
    Broken(Broken),
}

/// What is wrong with a record.
#[derive(Clone, Debug, PartialEq, Eq)]
pub struct Broken {
    /// Its number, from 1.
    pub record: u64,
    /// The line that is at fault, from 1.
    pub line: u64,
    pub why: String,
    /// Whether the input ends in the record.
    pub is_cut: bool,
}

/// The records of an input, one after the other.
pub struct Records<R> {
    input: BufReader<R>,
    /// What is there of the lines of the next record.
    lines: [Vec<u8>; 4],
    /// Which of them is read.
    at: usize,
    /// How many records were given.
    given: u64,
    /// How many lines came before those of the next record.
    before: u64,
    /// How many empty lines came after the last record. Only the end of the input may follow them.
    empty: u64,
}

impl<R: Read> Records<R> {
    pub fn new(input: R) -> Self {
        let input = BufReader::with_capacity(BUFFER, input);
        Records { input, lines: Default::default(), at: HEADER, given: 0, before: 0, empty: 0 }
    }

    /// Where the bytes come from.
    pub fn input(&mut self) -> &mut R {
        self.input.get_mut()
    }

    /// The number of the next record, and of the line that is read of it.
    pub fn place(&self) -> (u64, u64) {
        (self.given + 1, self.before + self.at as u64 + 1)
    }

    /// The next record; none at the end of the input. An input that has nothing for now fails with `WouldBlock`, and this
    /// goes on where it was.
    pub fn next(&mut self) -> Result<Option<Record>, NoRecord> {
        loop {
            let ended = self.line()?;
            if self.at == HEADER && self.lines[HEADER].is_empty() {
                if !ended {
                    return Ok(None);
                }
                (self.before, self.empty) = (self.before + 1, self.empty + 1);
                continue;
            }
            if self.empty > 0 {
                (self.before, self.empty) = (self.before - self.empty, 0);
                let why = "it is empty, and a record begins with @".into();
                return Err(NoRecord::Broken(self.broken(HEADER, why)));
            }
            // The last line of a file may lack its end: a quality that was cut is too short.
            if !ended && (self.at < QUALITY || self.lines[QUALITY].is_empty()) {
                return Err(self.cut());
            }
            if self.at < QUALITY {
                self.at += 1;
                continue;
            }
            let record = self.record().map_err(|broken| NoRecord::Broken(Broken { is_cut: !ended, ..broken }))?;
            self.lines.iter_mut().for_each(Vec::clear);
            (self.at, self.given, self.before) = (HEADER, self.given + 1, self.before + LINES.len() as u64);
            return Ok(Some(record));
        }
    }

    /// Reads on in the present line, up to its end. Says whether that was there.
    fn line(&mut self) -> Result<bool, NoRecord> {
        let line = &mut self.lines[self.at];
        let room = READ_LINE_LIMIT + 1 - line.len();
        let read = (&mut self.input).take(room as u64).read_until(b'\n', line);
        read.map_err(|error| match error.kind() {
            ErrorKind::WouldBlock => NoRecord::Idle,
            _ => NoRecord::Input(error),
        })?;
        if line.last() == Some(&b'\n') {
            line.pop();
            return Ok(true);
        }
        if line.len() > READ_LINE_LIMIT {
            let why = format!("it has more than {READ_LINE_LIMIT} bytes");
            return Err(NoRecord::Broken(self.broken(self.at, why)));
        }
        Ok(false)
    }

    /// The record in the four lines.
    fn record(&self) -> Result<Record, Broken> {
        let [header, sequence, plus, quality] = &self.lines;
        let Some(header) = header.strip_prefix(b"@") else {
            return Err(self.broken(HEADER, "it does not begin with @".into()));
        };
        if header.ends_with(b"\r") {
            return Err(self.broken(
                HEADER,
                "it ends with bytes 13 and 10, and not with 10 alone: tr -d '\\r' corrects it".into(),
            ));
        }
        let name = header.split(|&byte| byte == b' ' || byte == b'\t').next().unwrap_or_default();
        if name.is_empty() {
            return Err(self.broken(HEADER, "there is no name after @".into()));
        }
        let Some(again) = plus.strip_prefix(b"+") else {
            return Err(self.broken(PLUS, "it does not begin with +".into()));
        };
        if !again.is_empty() && again != header {
            return Err(self.broken(PLUS, "it names another read than the line with @".into()));
        }
        if sequence.is_empty() {
            return Err(self.broken(SEQUENCE, "the read is empty".into()));
        }
        if let Some(low) = quality.iter().find(|&&byte| byte < FIRST) {
            return Err(self.broken(QUALITY, format!("it has byte {low}, which is below !")));
        }
        if sequence.len() != quality.len() {
            let why = format!("it has {} bytes, and the sequence has {}", quality.len(), sequence.len());
            return Err(self.broken(QUALITY, why));
        }
        let scores = quality.iter().map(|&byte| SCORES_A_UNIT * u16::from(byte - FIRST)).collect();
        Ok(Record { name: noted(name), scores })
    }

    fn broken(&self, at: usize, why: String) -> Broken {
        let line = self.before + at as u64 + 1;
        let why = format!("the {}: {why}", LINES[at]);
        Broken { record: self.given + 1, line, why, is_cut: false }
    }

    fn cut(&self) -> NoRecord {
        let ((record, line), why) = (self.place(), "the input ends in this record".into());
        NoRecord::Broken(Broken { record, line, why, is_cut: true })
    }
}

/// A name as it is noted: as it is, or with escapes where it has other bytes than text; no more of it than a note holds.
fn noted(name: &[u8]) -> String {
    let mut text = printable(name);
    let end = (0..=text.len().min(NOTE_LIMIT)).rfind(|&end| text.is_char_boundary(end));
    text.truncate(end.unwrap_or(0));
    text
}

#[cfg(test)]
mod tests {
    use super::*;

    /// Gives one byte at a time, and between two of them nothing.
    struct Slow<'a>(&'a [u8], bool);

    impl Read for Slow<'_> {
        fn read(&mut self, room: &mut [u8]) -> io::Result<usize> {
            self.1 = !self.1;
            if self.1 { Err(ErrorKind::WouldBlock.into()) } else { self.0.read(&mut room[..1]) }
        }
    }

    fn record(name: &str, scores: &[u16]) -> Record {
        Record { name: name.into(), scores: scores.to_vec() }
    }

    /// All records of an input, and what is wrong with the one after them.
    fn records(input: impl Read) -> (Vec<Record>, Option<Broken>) {
        let (mut records, mut all) = (Records::new(input), Vec::new());
        loop {
            match records.next() {
                Ok(Some(record)) => all.push(record),
                Ok(None) => return (all, None),
                Err(NoRecord::Broken(broken)) => return (all, Some(broken)),
                Err(NoRecord::Idle) => {}
                Err(NoRecord::Input(error)) => panic!("{error}"),
            }
        }
    }

    // Quality 0 is !, 10 is +, 31 is @, and 93 is ~; beyond it the log refuses.
    #[test]
    fn names_and_scores() {
        let text = b"@a x y\nACG\n+\n!+~\n@b\tz\nA\n+b\tz\n@\n@c\nAC\n+\n\x7f\xff\n";
        let all = [record("a", &[0, 40, 372]), record("b", &[124]), record("c", &[376, 888])];
        assert_eq!(records(&text[..]), (all.to_vec(), None));
        assert_eq!(records(Slow(text, false)), (all.to_vec(), None));
        // Without the last line's end, and with empty lines after it.
        assert_eq!(records(&text[..text.len() - 1]), (all.to_vec(), None));
        assert_eq!(records(&[text, &b"\n\n"[..]].concat()[..]), (all.to_vec(), None));
        assert_eq!(records(&b""[..]), (vec![], None));
    }

    #[test]
    fn broken_records() {
        for (text, line, why, is_cut) in [
            (&b"a\nAC\n+\n!!\n"[..], 1, "the name: it does not begin with @", false),
            (b"@\nAC\n+\n!!\n", 1, "the name: there is no name after @", false),
            (b"@ a\nAC\n+\n!!\n", 1, "the name: there is no name after @", false),
            (b"@a\n\n+\n\n", 2, "the sequence: the read is empty", false),
            (b"@a\nAC\n!!\n@b\n", 3, "the line with +: it does not begin with +", false),
            (b"@a\nAC\n+b\n!!\n", 3, "the line with +: it names another read than the line with @", false),
            (b"@a\nAC\n+\n!\n", 4, "the quality: it has 1 bytes, and the sequence has 2", false),
            (b"@a\nAC\n+\n!!!\n", 4, "the quality: it has 3 bytes, and the sequence has 2", false),
            (b"@a\nAC\n+\n! \n", 4, "the quality: it has byte 32, which is below !", false),
            (
                b"@a\r\nAC\r\n+\r\n!!\r\n",
                1,
                "the name: it ends with bytes 13 and 10, and not with 10 alone: tr -d '\\r' corrects it",
                false,
            ),
            (b"\n@a\nAC\n+\n!!\n", 1, "the name: it is empty, and a record begins with @", false),
            (b"@a\nAC\n+\n!", 4, "the quality: it has 1 bytes, and the sequence has 2", true),
            (b"@a\nAC\n+\n", 4, "the input ends in this record", true),
            (b"@a\nAC\n+", 3, "the input ends in this record", true),
            (b"@a\nAC\n", 3, "the input ends in this record", true),
            (b"@a", 1, "the input ends in this record", true),
        ] {
            let broken = |record, before: u64| Broken { record, line: before + line, why: why.into(), is_cut };
            assert_eq!(records(text), (vec![], Some(broken(1, 0))), "{}", text.escape_ascii());
            let after = [&b"@x\nA\n+\n!\n"[..], text].concat();
            let first = vec![record("x", &[0])];
            assert_eq!(records(&after[..]), (first.clone(), Some(broken(2, 4))), "{}", after.escape_ascii());
            assert_eq!(records(Slow(&after, false)), (first, Some(broken(2, 4))), "{}", after.escape_ascii());
        }
    }

    // A line that does not end is given up before it fills the memory.
    #[test]
    fn endless_lines() {
        let (all, broken) = records(io::repeat(b'@'));
        assert_eq!(
            (all, broken.map(|broken| broken.why)),
            (vec![], Some("the name: it has more than 16777216 bytes".into()))
        );
    }

    #[test]
    fn noted_names() {
        assert_eq!(noted(b"HWI:1:2"), "HWI:1:2");
        assert_eq!(noted("größe".as_bytes()), "größe");
        assert_eq!(noted(b"a\xff\x01"), "a\\xff\\x01");
        assert_eq!(noted(&[b'a'; 201]), "a".repeat(200));
        // A letter of two bytes is not cut in half.
        assert_eq!(noted(format!("{}ß", "a".repeat(199)).as_bytes()), "a".repeat(199));
    }
}
