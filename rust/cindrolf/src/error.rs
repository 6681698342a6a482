//! Refusals, and the other errors of an operation.

use crate::{Kind, TEXT_BYTES, VERSION, calls};
use std::fmt;

/// Why an operation gave no answer.
///
/// ```
/// use cindrolf::{Error, Log, Refusal};
///
/// fn lead(log: &mut Log, client: u64) -> Result<(), Error> {
///     log.become_leader(client)?;
///     log.fetch(client)
/// }
///
/// let mut log = Log::fresh(2)?;
/// assert_eq!(lead(&mut log, 1), Err(Error::Refused(Refusal::NotNamed)));
/// assert_eq!(lead(&mut log, 1).unwrap_err().to_string(), "the client is not the named leader (refusal 6)");
/// # Ok::<(), Error>(())
/// ```
#[derive(Clone, Copy, Debug, PartialEq, Eq, Hash)]
#[non_exhaustive]
pub enum Error {
    /// The operation was refused, and no word of any buffer has changed.
    Refused(Refusal),
    /// The library gave this number, which means nothing here: the archive is of another version than this crate. What
    /// it did to the buffers isn't known.
    UnknownAnswer(u64),
    /// The archive is of this version, and the crate is written for [`VERSION`](crate::VERSION). Nothing was called.
    OtherVersion(u64),
    /// The text is no [`MarkName`](crate::MarkName): it hasn't 1 to 8 bytes, or one of them is zero. Nothing was called.
    NoMarkName,
}

impl Error {
    /// The refusal, where it is one.
    pub const fn refusal(self) -> Option<Refusal> {
        match self {
            Error::Refused(refusal) => Some(refusal),
            _ => None,
        }
    }
}

impl From<Refusal> for Error {
    fn from(refusal: Refusal) -> Self {
        Error::Refused(refusal)
    }
}

impl fmt::Display for Error {
    fn fmt(&self, f: &mut fmt::Formatter<'_>) -> fmt::Result {
        match self {
            Error::Refused(refusal) => write!(f, "{refusal} (refusal {})", refusal.number()),
            Error::UnknownAnswer(number) => {
                write!(f, "the library answered {number}, which this version of the crate does not know")
            }
            Error::OtherVersion(version) => {
                write!(f, "the library has version {version}, and the crate is written for version {VERSION}")
            }
            Error::NoMarkName => f.write_str("the name of a mark has 1 to 8 bytes, none of them zero"),
        }
    }
}

// A refusal's sentence is in the text above, so there is no further source to print.
impl std::error::Error for Error {}

macro_rules! refusals {
    ($($(#[$doc:meta])* $name:ident = $number:literal, $text:literal;)*) => {
        /// Why an operation was refused. No word of any buffer has changed.
        #[derive(Clone, Copy, Debug, PartialEq, Eq, Hash, PartialOrd, Ord)]
        #[non_exhaustive]
        pub enum Refusal {
            $($(#[$doc])* $name = $number,)*
        }

        impl Refusal {
            /// Every refusal, in the order of their numbers.
            pub const ALL: &[Refusal] = &[$(Refusal::$name),*];

            /// The refusal with this number.
            ///
            /// ```
            /// use cindrolf::Refusal;
            /// assert_eq!(Refusal::from_number(12), Some(Refusal::LedgerFenced));
            /// assert_eq!(Refusal::from_number(0), None);
            /// ```
            pub const fn from_number(number: u64) -> Option<Refusal> {
                match number {
                    $($number => Some(Refusal::$name),)*
                    _ => None,
                }
            }

            const fn text(self) -> &'static str {
                match self {
                    $(Refusal::$name => $text,)*
                }
            }
        }
    };
}

refusals! {
    /// The state buffer hasn't 527 words, the entry buffer hasn't 512 or 4,096, the marks buffer hasn't 64, or the rights
    /// buffer hasn't 16.
    WrongLength = 1, "a buffer has the wrong length";
    /// The buffers hold no log, or the marks or the rights are none of this log.
    NotWellFormed = 2, "a buffer is not well formed";
    /// The client number isn't below the client count.
    UnknownClient = 3, "the client number is not below the client count";
    /// The client is the named leader: it can't be named again, and it can't abdicate.
    AlreadyNamed = 4, "the client is the named leader";
    /// The client leads already.
    AlreadyLeads = 5, "the client leads already";
    /// The client isn't the named leader, so it can't begin to lead.
    NotNamed = 6, "the client is not the named leader";
    /// The client doesn't lead.
    DoesNotLead = 7, "the client does not lead";
    /// The client leads, and is at another stage than this step's.
    OtherStage = 8, "the client is at another stage";
    /// What the client remembers can't be. It never occurs on a log that began fresh.
    ImpossibleMemory = 9, "the client remembers what cannot be";
    /// All 255 ledger numbers are in use.
    NoLedgerNumber = 10, "no ledger number is left";
    /// The value is 2^52 or more.
    ValueTooWide = 11, "the value has more than fifty two bits";
    /// Another leader has fenced the client's ledger.
    LedgerFenced = 12, "another leader has fenced the ledger";
    /// There are as many entries as the entry buffer has words: 512 or 4,096.
    LogFull = 13, "the log is full";
    /// Withdrawn: no operation gives it, and its number stays taken. An empty ledger is closed as any other.
    LedgerEmpty = 14, "the ledger has no entry";
    /// The ledger isn't in the list.
    NotListed = 15, "the ledger is not in the list";
    /// The output buffer is shorter than the reading.
    OutputTooShort = 16, "the output buffer is shorter than the reading";
    /// The client count is 0 or above 16.
    ClientCount = 17, "the client count is not one to sixteen";
    /// There are no scores, or more than 4,000.
    ScoreCount = 18, "there are no scores or more than four thousand";
    /// A score is above 372.
    ScoreTooHigh = 19, "a score is above three hundred and seventy two";
    /// The window's length is 0 or above 256.
    WindowLength = 20, "the window length is zero or too large";
    /// A mark of this name is kept already, or the name is all zero.
    MarkNameTaken = 21, "the name of the mark is taken or all zero";
    /// All 32 marks are in use.
    MarksFull = 22, "thirty two marks are kept already";
    /// No mark of this name is kept.
    MarkNotKept = 23, "no mark of this name is kept";
    /// The client lacks the right to this step.
    MissingRight = 24, "the client lacks the right to this step";
    /// The step word names no step. It is the answer of such a step in a run, which gives no answers, and so of no call.
    UnknownStep = 25, "the step number is above nine";
    /// There are more than 4,096 words to rearrange, or their bytes aren't eight times as many.
    StorageLength = 26, "too many words or not eight bytes for each";
    /// The text buffer has fewer than 96 bytes.
    TextTooShort = 27, "the text buffer has fewer than ninety six bytes";
    /// There is no such step, the client is above 255, or there is no such refusal.
    NoSentence = 28, "there is no sentence for these numbers";
}

impl Refusal {
    /// The refusal's number, 1 to 28.
    pub const fn number(self) -> u64 {
        self as u64
    }

    /// The refusal as one sentence, with the kind of step that was refused and its client, which is at most 255.
    ///
    /// ```
    /// use cindrolf::{Error, Kind, Refusal};
    ///
    /// let sentence = Refusal::DoesNotLead.sentence(Kind::CloseLast, 7)?;
    /// assert_eq!(sentence, "close last of client 7: the client does not lead");
    /// let none = Refusal::DoesNotLead.sentence(Kind::CloseLast, 256);
    /// assert_eq!(none, Err(Error::Refused(Refusal::NoSentence)));
    /// # Ok::<(), Error>(())
    /// ```
    pub fn sentence(self, kind: Kind, client: u64) -> Result<String, Error> {
        let mut text = [0; TEXT_BYTES];
        let length = calls::sentence(kind.number(), client, self.number(), &mut text)?;
        Ok(String::from_utf8_lossy(&text[..length]).into_owned())
    }
}

/// What a sentence says, as [`calls::read_sentence`](crate::calls::read_sentence()) reads it.
#[derive(Clone, Copy, Debug, PartialEq, Eq, Hash)]
pub struct Said {
    /// The kind of step that was refused.
    pub kind: Kind,
    /// Its client, at most 255.
    pub client: u64,
    /// The refusal.
    pub refusal: Refusal,
}

/// The reason, as in the refusal's sentences.
impl fmt::Display for Refusal {
    fn fmt(&self, f: &mut fmt::Formatter<'_>) -> fmt::Result {
        f.write_str(self.text())
    }
}

impl std::error::Error for Refusal {}

#[cfg(test)]
mod tests {
    use super::*;

    #[test]
    fn numbers() {
        assert_eq!(Refusal::ALL.len(), 28);
        for (number, &refusal) in (1..).zip(Refusal::ALL) {
            assert_eq!(refusal.number(), number);
            assert_eq!(Refusal::from_number(number), Some(refusal));
            assert_eq!(Error::from(refusal).refusal(), Some(refusal));
        }
    }

    #[test]
    fn texts() {
        assert_eq!(Refusal::LogFull.to_string(), "the log is full");
        assert_eq!(Error::from(Refusal::LogFull).to_string(), "the log is full (refusal 13)");
        let missing = Error::from(Refusal::MissingRight).to_string();
        assert_eq!(missing, "the client lacks the right to this step (refusal 24)");
        let unknown = Error::from(Refusal::UnknownStep).to_string();
        assert_eq!(unknown, "the step number is above nine (refusal 25)");
        let other = Error::OtherVersion(1).to_string();
        assert_eq!(other, "the library has version 1, and the crate is written for version 3");
        assert!(Error::UnknownAnswer(300).to_string().starts_with("the library answered 300, "));
        assert_eq!(Error::NoMarkName.to_string(), "the name of a mark has 1 to 8 bytes, none of them zero");
    }
}
