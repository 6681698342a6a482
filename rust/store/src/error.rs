//! Why a call on a store gave no answer, and whether its step may be stored all the same.

use cindrolf::Refusal;
use sqlite::Fault;
use std::fmt;

/// Whether a step that gave no answer is in the file.
#[derive(Clone, Copy, Debug, PartialEq, Eq)]
pub enum Stored {
    /// It is not.
    No,
    /// It may be: look before you take it again. [`Latest::writes_of`](crate::Latest::writes_of) shows it for a write.
    Unknown,
}

/// Why a call gave no answer.
#[derive(Clone, Debug, PartialEq, Eq)]
#[non_exhaustive]
pub enum Error {
    /// The log refused the call. Nothing is stored.
    Refused(Refusal),
    /// The linked library is of another version, or a text is no name of a mark. Nothing is stored.
    Library(cindrolf::Error),
    /// There is no file of this name.
    Missing,
    /// There is a file of this name already.
    Exists,
    /// The file is an empty SQLite file: its creation was begun and not finished. `create` finishes it.
    Unfinished,
    /// No log can be kept in this file: it has a second name, or is on a network disk, or the linked SQLite is too old.
    /// The text says which, and what to do.
    Unfit(String),
    /// The file is no log, or one of another version. The text says what it lacks.
    NoLog(String),
    /// The file is an inconsistent log. The text says where.
    Damaged(String),
    /// The journal has as many rows of this client as it takes, or of marks and rights.
    JournalFull(Option<u64>),
    /// The bytes are no archive, or one that was changed. The text says why.
    NoArchive(String),
    /// The file is of an earlier version, and is only read: [`Store::upgrade_to`](crate::Store::upgrade_to) makes a new file of
    /// it.
    OldFormat,
    /// The file is of this version, and there is nothing to upgrade.
    UpToDate,
    /// A text for people is too long.
    TooLong {
        /// Which one.
        what: &'static str,
        /// The most bytes that it has.
        limit: usize,
    },
    /// The step is stored, and its row could not be written to the witness file. The text says why.
    Witness(String),
    /// The log has lost rows that the witness knows, or is another one. The text says where.
    NotWitnessed(String),
    /// The store was opened in another process, and this one is forked from that. It has to open the file itself.
    Forked,
    /// The file was removed since it was opened, or another has its name. Open it with a new store.
    Replaced,
    /// The address of a log on a server is wrong. The text says why, and what to do.
    Address(String),
    /// The server cannot be reached, or does not answer. Nothing is stored.
    Unreachable(String),
    /// The server refuses the request, and nothing is stored. The text is what it says.
    Forbidden(String),
    /// It is not known whether the request of this id is stored, or will be; or whether a log was made on a server.
    Unknown {
        /// The request's id, by which [`Store::settle`](crate::Store::settle) tells later what became of it. 0 where a log
        /// was to be made.
        request: u64,
        /// What was heard last.
        why: String,
    },
    /// The server's rows are not those that this store has read: they were lost, or the log was restored from a copy.
    /// The store does nothing any more; open the log again.
    OtherHistory,
    /// The store was opened only to read.
    ReadOnly,
    /// A file could not be read or written. The text says why.
    File(String),
    /// SQLite failed.
    Engine {
        /// Whether the step may be stored all the same.
        stored: Stored,
        /// What SQLite answered.
        fault: Fault,
    },
}

impl Error {
    /// Whether the step may be stored although it gave no answer.
    pub fn stored(&self) -> Stored {
        match self {
            Error::Engine { stored, .. } => *stored,
            Error::Witness(_) | Error::Unknown { .. } => Stored::Unknown,
            _ => Stored::No,
        }
    }

    /// The refusal, if the log itself refused.
    pub fn refusal(&self) -> Option<Refusal> {
        match self {
            Error::Refused(refusal) => Some(*refusal),
            _ => None,
        }
    }

    /// Whether another process held the lock for longer than this one waits.
    pub fn is_busy(&self) -> bool {
        matches!(self, Error::Engine { fault, .. } if fault.is_busy())
    }

    /// Whether the disk had no room. SQLite tells of a write-ahead log that cannot grow by an error of writing.
    pub(crate) fn is_full(&self) -> bool {
        let full = |fault: &Fault| fault.primary() == sqlite::FULL || fault.code == sqlite::IOERR_WRITE;
        matches!(self, Error::Engine { fault, .. } if full(fault))
    }

    /// What SQLite answered to a commit: nothing tells whether that came to pass, whatever it says.
    pub(crate) fn of_commit(fault: Fault) -> Self {
        Error::Engine { stored: Stored::Unknown, fault }
    }

    /// Whether what the connection shows is not that of the file, so that nothing of it may be copied there.
    pub(crate) fn is_of_other_files(&self) -> bool {
        match self {
            Error::Engine { fault, .. } => fault.code == sqlite::IOERR_VNODE,
            Error::Damaged(_) | Error::NoLog(_) | Error::Replaced | Error::Unfit(_) => true,
            _ => false,
        }
    }
}

impl From<Fault> for Error {
    fn from(fault: Fault) -> Self {
        match fault.primary() {
            sqlite::NOTADB => Error::NoLog("it is no SQLite file".into()),
            sqlite::CORRUPT => Error::Damaged(format!("SQLite finds that {}", fault.message)),
            sqlite::TOOBIG => Error::Damaged("one of its values is larger than any of a log".into()),
            _ => Error::Engine { stored: Stored::No, fault },
        }
    }
}

impl From<Refusal> for Error {
    fn from(refusal: Refusal) -> Self {
        Error::Refused(refusal)
    }
}

impl From<cindrolf::Error> for Error {
    fn from(error: cindrolf::Error) -> Self {
        match error {
            cindrolf::Error::Refused(refusal) => Error::Refused(refusal),
            error => Error::Library(error),
        }
    }
}

impl fmt::Display for Error {
    fn fmt(&self, f: &mut fmt::Formatter<'_>) -> fmt::Result {
        match self {
            Error::Refused(refusal) => write!(f, "{refusal} (refusal {})", refusal.number()),
            Error::Library(error) => write!(f, "{error}"),
            Error::Missing => f.write_str("there is no such file"),
            Error::Exists => f.write_str("there is a file of this name already"),
            Error::Unfinished => f.write_str("its creation was not finished; create it again"),
            Error::Unfit(why) => write!(f, "no log can be kept there: {why}"),
            Error::NoLog(why) => write!(f, "it is no run log of this version: {why}"),
            Error::Damaged(why) => write!(f, "the log is damaged: {why}"),
            Error::JournalFull(Some(client)) => {
                write!(f, "client {client} has {} rows in the log, the most that it takes", crate::CLIENT_ROW_LIMIT)
            }
            Error::JournalFull(None) => {
                write!(f, "the log has {} rows of marks and rights, the most that it takes", crate::OTHER_ROW_LIMIT)
            }
            Error::NoArchive(why) => write!(f, "it is no whole archive: {why}"),
            Error::OldFormat => f.write_str(
                "it was made by an earlier version, and can only be read: 'cindrolf upgrade OLD NEW' makes a new file of it",
            ),
            Error::UpToDate => f.write_str("it is of this version already: 'cindrolf copy' makes a copy of it"),
            Error::TooLong { what, limit } => write!(f, "{what} has at most {limit} bytes"),
            Error::Witness(why) => write!(f, "the step is stored, and the witness file cannot be written: {why}"),
            Error::NotWitnessed(why) => write!(f, "the log is not the one that the witness knows: {why}"),
            Error::Forked => f.write_str("the log was opened before this process was forked; open it here as well"),
            Error::Replaced => f.write_str("the file was removed or replaced since it was opened"),
            Error::Address(why) => write!(f, "this is no address of a log: {why}"),
            Error::Unreachable(why) => f.write_str(why),
            Error::Forbidden(why) => f.write_str(why),
            Error::Unknown { request: 0, why } => {
                write!(f, "it is not known whether the log is made: {why}; look whether it is there")
            }
            Error::Unknown { request, why } => {
                write!(f, "it is not known whether request {request} is stored: {why}")
            }
            Error::OtherHistory => f.write_str("the server's rows are not those that were read: some were lost, or put back"),
            Error::ReadOnly => f.write_str("the log was opened only to read"),
            Error::File(why) => f.write_str(why),
            Error::Engine { stored, fault } => {
                let stored = match stored {
                    Stored::No => "not stored",
                    Stored::Unknown => "it is not known whether the step is stored",
                };
                write!(f, "{stored}: {fault}")
            }
        }
    }
}

impl std::error::Error for Error {
    fn source(&self) -> Option<&(dyn std::error::Error + 'static)> {
        match self {
            Error::Refused(refusal) => Some(refusal),
            Error::Library(error) => Some(error),
            Error::Engine { fault, .. } => Some(fault),
            _ => None,
        }
    }
}

#[cfg(test)]
mod tests {
    use super::*;

    #[test]
    fn every_error_of_a_commit_is_unknown() {
        for code in [sqlite::BUSY, sqlite::CORRUPT, sqlite::NOTADB, sqlite::TOOBIG, sqlite::FULL, sqlite::IOERR_VNODE] {
            let fault = Fault { code, message: "so".into() };
            let error = Error::of_commit(fault.clone());
            assert_eq!(error.stored(), Stored::Unknown, "{code}");
            assert!(error.to_string().starts_with("it is not known whether the step is stored"), "{error}");
            assert_eq!(Error::from(fault).stored(), Stored::No, "{code}");
        }
    }
}
