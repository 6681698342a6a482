//! Why a call failed: its status, and what the caller can ask the handle for.

use crate::Status;
use cindrolf::Refusal;
use store::Error;

/// Why a call was not done.
#[derive(Debug)]
pub struct Failure {
    pub status: Status,
    pub message: String,
    /// The refusal, where the log refused.
    pub refusal: Option<Refusal>,
    /// The request of which nobody knows whether it is stored, if it has an id.
    pub request: u64,
}

impl Failure {
    /// A mistake of the caller.
    pub fn argument(message: impl Into<String>) -> Failure {
        Failure { message: message.into(), ..Failure::from(Status::BadArgument) }
    }
}

impl From<Status> for Failure {
    fn from(status: Status) -> Self {
        Failure { status, message: status.text().to_string_lossy().into_owned(), refusal: None, request: 0 }
    }
}

impl From<Error> for Failure {
    fn from(error: Error) -> Self {
        let request = match error {
            Error::Unknown { request, .. } => request,
            _ => 0,
        };
        Failure { status: Status::of(&error), message: error.to_string(), refusal: error.refusal(), request }
    }
}

impl From<Refusal> for Failure {
    fn from(refusal: Refusal) -> Self {
        Error::from(refusal).into()
    }
}
