//! The statuses of calls: one table of their numbers, names and sentences, and the status of each error of the store.

use std::ffi::{CStr, c_char, c_int};
use store::{Error, Stored};

macro_rules! statuses {
    ($($(#[$doc:meta])* $status:ident, $name:literal, $text:literal;)*) => {
        /// How a call ended.
        #[derive(Clone, Copy, Debug, PartialEq, Eq)]
        pub enum Status {
            $($(#[$doc])* $status,)*
        }

        impl Status {
            /// All of them, in the order of their numbers.
            pub const ALL: &[Status] = &[$(Status::$status),*];

            /// Its name in the header, without `CINDROLF_STORE_`.
            pub const fn name(self) -> &'static str {
                match self {
                    $(Status::$status => $name,)*
                }
            }

            /// What it says, and what to do.
            pub const fn text(self) -> &'static CStr {
                match self {
                    $(Status::$status => $text,)*
                }
            }
        }
    };
}

statuses! {
    /// It is done, and stored where it stores anything.
    Ok, "OK", c"done";
    /// The log refused.
    Refused, "REFUSED", c"the log refused it, and nothing is stored";
    /// Something failed before anything was stored.
    NotStored, "NOT_STORED", c"nothing is stored: see the message, and try again";
    /// Nobody knows whether it is stored.
    Unknown, "UNKNOWN", c"it is not known whether it is stored: settle the request, or read the log, before you try again";
    /// It is stored, and the witness file is not written.
    Unwitnessed, "UNWITNESSED", c"it is stored, and the witness file could not be written: read the log for the answer";
    /// The log does not hold together, or has lost rows.
    Damaged, "DAMAGED", c"the log is damaged or has lost rows: stop, and see the message";
    /// The server does not answer.
    Unreachable, "UNREACHABLE", c"the server cannot be reached, and nothing is stored: try again";
    /// Another process has the lock.
    Busy, "BUSY", c"another process held the lock for too long, and nothing is stored: try again";
    /// There is no room for a row.
    Full, "FULL", c"the log has no room for another row: go on with another log";
    /// The server does not let this user do it.
    Forbidden, "FORBIDDEN", c"the server forbids it to this user, and nothing is stored";
    /// The log is only read.
    ReadOnly, "READ_ONLY", c"the log was opened only to read, or is of an earlier version";
    /// There is no log.
    Missing, "MISSING", c"there is no such log: create it";
    /// There is a log already.
    Exists, "EXISTS", c"there is a log of this name already: open it";
    /// What is there is no log.
    NoLog, "NO_LOG", c"what is there is no log of this version, or no log can be kept there";
    /// The handle is of no use any more.
    OpenAgain, "OPEN_AGAIN", c"the file was replaced, or the process was forked: close the handle, and open the log again";
    /// The caller's mistake.
    BadArgument, "BAD_ARGUMENT", c"an argument is wrong, and nothing was done: see the message";
    /// No handle.
    BadHandle, "BAD_HANDLE", c"the handle is null, closed, or not of this process";
    /// Another thread uses the handle.
    InUse, "IN_USE", c"another call is using the handle, and nothing was done: open a handle for each thread";
    /// A mistake of this library.
    Internal, "INTERNAL", c"this library has a fault: close the handle, read the log, and report it";
}

impl Status {
    /// Its number in the header.
    pub const fn number(self) -> c_int {
        self as c_int
    }

    /// The status of an error.
    pub fn of(error: &Error) -> Status {
        match error {
            Error::Refused(_) => Status::Refused,
            Error::Library(_) => Status::Internal,
            Error::Missing | Error::Unfinished => Status::Missing,
            Error::Exists => Status::Exists,
            Error::Unfit(_) | Error::NoLog(_) => Status::NoLog,
            Error::Damaged(_) | Error::NotWitnessed(_) | Error::OtherHistory => Status::Damaged,
            Error::JournalFull(_) => Status::Full,
            Error::OldFormat | Error::ReadOnly => Status::ReadOnly,
            Error::TooLong { .. } | Error::Address(_) | Error::UpToDate => Status::BadArgument,
            Error::Witness(_) => Status::Unwitnessed,
            Error::Forked | Error::Replaced => Status::OpenAgain,
            Error::Unreachable(_) => Status::Unreachable,
            Error::Forbidden(_) => Status::Forbidden,
            error if error.stored() == Stored::Unknown => Status::Unknown,
            error if error.is_busy() => Status::Busy,
            _ => Status::NotStored,
        }
    }
}

/// The sentence of a status, which stays. A number that is none has a sentence too.
#[unsafe(no_mangle)]
pub extern "C" fn cindrolf_store_status_text(status: c_int) -> *const c_char {
    let known = usize::try_from(status).ok().and_then(|number| Status::ALL.get(number));
    known.map_or(c"this number is no status", |status| status.text()).as_ptr()
}

#[cfg(test)]
mod tests {
    use super::*;

    fn read(path: &str) -> String {
        std::fs::read_to_string(format!("{}/../../{path}", env!("CARGO_MANIFEST_DIR"))).expect("a file of the sources")
    }

    /// The names and numbers in lines such as `PREFIX NAME = NUMBER`, within the lines from one that begins so to a bracket
    /// or an empty line.
    fn listed(text: &str, from: &str, prefix: &str) -> Vec<(String, c_int)> {
        let lines = text.lines().skip_while(|line| !line.starts_with(from)).skip(1);
        let names = lines.take_while(|line| !line.trim().is_empty() && !line.starts_with('}'));
        let pairs = names.filter_map(|line| line.trim().strip_prefix(prefix)?.split_once(" = "));
        let number = |text: &str| text.split([',', ' ']).next().and_then(|text| text.parse().ok()).expect("a number");
        pairs.map(|(name, rest)| (name.to_uppercase(), number(rest))).collect()
    }

    #[test]
    fn every_language_has_this_table() {
        let table: Vec<_> = Status::ALL.iter().map(|status| (status.name().to_owned(), status.number())).collect();
        assert!(table.iter().map(|(_, number)| *number).eq(0..table.len() as c_int));
        let header = read("include/cindrolf_store.h");
        assert_eq!(listed(&header, "enum cindrolf_store_status {", "CINDROLF_STORE_"), table, "the header");
        let python =
            read("python/cindrolf/_values.py").replace("\n    \"\"\"How a call on a shared log ended.\"\"\"\n", "");
        assert_eq!(listed(&python, "class Status(enum.IntEnum):", ""), table, "Python");
        // That for C++ takes its numbers from the header.
        let names: Vec<_> = Status::ALL.iter().map(|status| status.name()).collect();
        let lines = names.iter().map(|name| format!("    {} = CINDROLF_STORE_{name},\n", name.to_lowercase()));
        let table = format!("enum class status : int {{\n{}}};\n", lines.collect::<String>());
        assert!(read("include/cindrolf_store.hpp").contains(&table), "C++ has not\n{table}");
    }

    #[test]
    fn sentences() {
        let texts: std::collections::BTreeSet<_> = Status::ALL.iter().map(|status| status.text()).collect();
        assert_eq!(texts.len(), Status::ALL.len());
        for number in [-1, Status::ALL.len() as c_int, c_int::MIN, c_int::MAX] {
            // SAFETY: it is a text that stays.
            let text = unsafe { CStr::from_ptr(cindrolf_store_status_text(number)) };
            assert_eq!(text, c"this number is no status");
        }
    }

    #[test]
    fn errors() {
        let fault = |code| store::Fault { code, message: String::new() };
        let engine = |stored, code| Error::Engine { stored, fault: fault(code) };
        const BUSY: i32 = 5;
        const FULL: i32 = 13;
        const PROTOCOL: i32 = 15;
        for (error, status) in [
            (engine(Stored::No, BUSY), Status::Busy),
            (engine(Stored::No, PROTOCOL), Status::Busy),
            (engine(Stored::Unknown, BUSY), Status::Unknown),
            (engine(Stored::No, FULL), Status::NotStored),
            (Error::Unknown { request: 7, why: String::new() }, Status::Unknown),
            (Error::Unreachable(String::new()), Status::Unreachable),
            (Error::Damaged(String::new()), Status::Damaged),
            (Error::OtherHistory, Status::Damaged),
            (Error::Refused(cindrolf::Refusal::LogFull), Status::Refused),
            (Error::File(String::new()), Status::NotStored),
            (Error::Witness(String::new()), Status::Unwitnessed),
        ] {
            assert_eq!(Status::of(&error), status, "{error:?}");
        }
    }
}
