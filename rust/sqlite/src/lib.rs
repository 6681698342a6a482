//! A safe connection to an SQLite file: its statements, its faults, and how it waits for the lock of another.

mod database;
mod fault;
mod linked;
mod raw;
mod wait;

pub use database::{Database, Mode, Row, Statement, Value};
pub use fault::Fault;
pub use linked::fit;
pub use raw::{BUSY, CANTOPEN, CORRUPT, FULL, IOERR, IOERR_VNODE, IOERR_WRITE, NOTADB, PERM, READONLY, TOOBIG};
pub use wait::{end_waiting, is_ending, patience_now};
