//! Why a command gave no answer.

use std::fmt;

/// Why a command gave no answer.
#[derive(Clone, Debug, PartialEq, Eq)]
pub enum Fault {
    /// There is no connection, and nothing was sent.
    Unreachable(String),
    /// The server refused the command, and nothing of it is stored.
    Refused {
        /// Its SQLSTATE.
        state: String,
        /// What it says.
        text: String,
    },
    /// The connection is lost, or no answer came in time: the command may be stored.
    Lost(String),
}

impl fmt::Display for Fault {
    fn fmt(&self, f: &mut fmt::Formatter<'_>) -> fmt::Result {
        match self {
            Fault::Unreachable(why) => write!(f, "the server cannot be reached: {why}"),
            Fault::Refused { state, text } => write!(f, "the server says: {text} (SQLSTATE {state})"),
            Fault::Lost(why) => write!(f, "the connection is lost: {why}"),
        }
    }
}

impl std::error::Error for Fault {}
