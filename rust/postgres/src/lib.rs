//! A safe connection to PostgreSQL through the system's libpq: one message a command, and a deadline for each.
//!
//! The first connection loads libpq. If there is none, [`Connection::open`] says what to install.

mod connection;
mod fault;
mod literal;
mod raw;

pub use connection::{Connection, Rows};
pub use fault::Fault;
pub use literal::{bytes, bytes_of, text};
