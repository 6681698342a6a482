//! The text of a session, as the session program reads and prints it: client count, lines, replies and sums.
//!
//! The program itself is proved, and written in Rattle. This crate is for commands in Rust that take the same lines.

use cindrolf::{Answer, CLIENT_LIMIT, CLIENT_NUMBER_LIMIT, Error, Kind, RunTotal, Step};
use limits::INPUT_LIMIT;
use std::fmt;

/// Why a text is no session. Its text is all that the session program prints then.
#[derive(Clone, Copy, Debug, PartialEq, Eq)]
pub enum NoSession {
    /// It has more than [`INPUT_LIMIT`].
    TooLong,
    /// The first line is no client count of 1 to 16.
    BadStart,
}

impl fmt::Display for NoSession {
    fn fmt(&self, f: &mut fmt::Formatter<'_>) -> fmt::Result {
        f.write_str(match self {
            NoSession::TooLong => "too long",
            NoSession::BadStart => "bad start",
        })
    }
}

impl std::error::Error for NoSession {}

/// A session's client count, and the lines after it.
#[derive(Clone, Debug, PartialEq, Eq)]
pub struct Session<'a> {
    /// The client count, 1 to 16.
    pub client_count: u64,
    /// The lines after the first.
    pub lines: Vec<Line<'a>>,
}

/// A line of a session.
#[derive(Clone, Copy, Debug, PartialEq, Eq)]
pub struct Line<'a> {
    /// Its bytes without the line end.
    pub bytes: &'a [u8],
    /// Whether it has its line end. Only the last line may lack it, and is a bad line then.
    pub ended: bool,
}

impl<'a> Session<'a> {
    /// The session in these bytes.
    pub fn read(input: &'a [u8]) -> Result<Self, NoSession> {
        if input.len() > INPUT_LIMIT {
            return Err(NoSession::TooLong);
        }
        let mut lines = input.split_inclusive(|&byte| byte == b'\n').map(|line| match line.strip_suffix(b"\n") {
            Some(bytes) => Line { bytes, ended: true },
            None => Line { bytes: line, ended: false },
        });
        let first = lines.next().filter(|line| line.ended).and_then(|line| number(line.bytes, CLIENT_LIMIT));
        match first {
            None | Some(0) => Err(NoSession::BadStart),
            Some(client_count) => Ok(Session { client_count, lines: lines.collect() }),
        }
    }
}

impl Line<'_> {
    /// The client and its step. A bad line has none.
    pub fn step(&self) -> Option<(u64, Step)> {
        if self.ended { step(self.bytes) } else { None }
    }
}

/// The client and the step in a line without its end.
///
/// ```
/// use cindrolf::Step;
/// assert_eq!(session::step(b"W 3 201"), Some((3, Step::write(201))));
/// assert_eq!(session::step(b"W 3"), None);
/// ```
pub fn step(line: &[u8]) -> Option<(u64, Step)> {
    let mut fields = line.split(|&byte| byte == b' ');
    let &[letter] = fields.next()? else { return None };
    let kind = Kind::from_letter(letter.into())?;
    let client = number(fields.next()?, CLIENT_NUMBER_LIMIT)?;
    let value = if kind == Kind::Write { number(fields.next()?, u64::MAX)? } else { 0 };
    fields.next().is_none().then_some((client, Step::new(kind, value)))
}

/// The line of a step, without its end.
///
/// ```
/// use cindrolf::Step;
/// assert_eq!(session::line(3, Step::write(201)), "W 3 201");
/// assert_eq!(session::line(0, Step::BECOME), "B 0");
/// ```
pub fn line(client: u64, step: Step) -> String {
    let (kind, value) = (step.kind(), step.value());
    let letter = kind.letter();
    if kind == Kind::Write { format!("{letter} {client} {value}") } else { format!("{letter} {client}") }
}

/// A number in decimal digits without leading zeros, up to a limit.
pub fn number(digits: &[u8], most: u64) -> Option<u64> {
    let plain = digits.iter().all(u8::is_ascii_digit) && (digits.len() == 1 || digits.first() != Some(&b'0'));
    let number = str::from_utf8(digits).ok()?.parse().ok()?;
    (plain && number <= most).then_some(number)
}

/// The reply to a step, as `ok`, `entry 3 place 0` or `ref 12`. What is no refusal is an error here too.
pub fn reply(taken: Result<Answer, Error>) -> Result<String, Error> {
    match taken {
        Ok(answer) => Ok(answer.to_string()),
        Err(Error::Refused(refusal)) => Ok(format!("ref {}", refusal.number())),
        Err(error) => Err(error),
    }
}

/// A sum in parts of 10^-12, with all its decimals.
pub fn exact(parts: u64) -> String {
    format!("{}.{:012}", parts / 1_000_000_000_000, parts % 1_000_000_000_000)
}

/// How many decimals [`exact`] prints.
const DECIMALS: usize = 12;

/// The parts of 10^-12 in a sum as [`exact`] prints it, of which decimals at the end may be left out.
///
/// ```
/// assert_eq!(session::parts(b"0.010"), Some(10_000_000_000));
/// assert_eq!(session::parts(b"2"), Some(2_000_000_000_000));
/// assert_eq!(session::parts(b"0.0000000000001"), None);
/// ```
pub fn parts(text: &[u8]) -> Option<u64> {
    let mut halves = text.splitn(2, |&byte| byte == b'.');
    let whole = number(halves.next()?, u64::MAX)?;
    let decimals = match halves.next() {
        None => 0,
        Some(digits) if digits.is_empty() || digits.len() > DECIMALS => return None,
        Some(digits) => {
            let digits = digits.iter().map(|&digit| digit.is_ascii_digit().then(|| u64::from(digit - b'0')));
            let zeros = std::iter::repeat(Some(0));
            digits.chain(zeros).take(DECIMALS).try_fold(0, |sum, digit| Some(10 * sum + digit?))?
        }
    };
    whole.checked_mul(1_000_000_000_000)?.checked_add(decimals)
}

/// The two lines of a run total, without their ends: the exact one and the rounded one.
pub fn total_lines(total: RunTotal) -> [String; 2] {
    let rounded = total.rounded;
    [format!("total {total}"), format!("rounded {}.{:03}", rounded / 1000, rounded % 1000)]
}
