//! A run log that up to sixteen controller processes share. Any of them may die at any time.
//!
//! The proved library says what one call does to a log's words. A [`Store`] keeps the calls: a log is a list of
//! requests, one row for each of their steps, and the library computes its words from them, starting from a fresh log.
//! So to open a log is to check it. A request is stored in one transaction, and answered only when it is on the disk.
//! If a process is killed at any moment, every write that was answered is stored exactly once, and no step is half
//! taken.
//!
//! ```
//! use cindrolf::{Capacity, EntryNumber, Progress, Refusal};
//! use cindrolf_store::{Error, Store};
//!
//! # let folder = std::env::temp_dir().join(format!("cindrolf-doc-{}", std::process::id()));
//! # std::fs::create_dir_all(&folder).unwrap();
//! # let file = folder.join("run.log");
//! let mut host = Store::create(&file, 2, Capacity::Large)?;
//! host.become_leader(0)?;
//! host.fetch(0)?;
//! host.create_ledger(0)?;
//! assert_eq!(host.append(0)?, Progress::Done);
//! assert_eq!(host.write(0, 201)?.number, EntryNumber(0));
//!
//! // Another process opens the same file, and sees what the first has stored.
//! let mut guest = Store::open(&file)?;
//! guest.name(1)?;
//! guest.become_leader(1)?;
//! guest.fetch(1)?;
//! let _ = guest.close_last(1)?;
//! let _ = guest.finish(1)?;
//! guest.create_ledger(1)?;
//! let _ = guest.append(1)?;
//! assert_eq!(host.write(0, 202), Err(Error::Refused(Refusal::LedgerFenced)));
//! assert_eq!(guest.write(1, 203)?.number, EntryNumber(1));
//! assert_eq!(host.latest()?.total()?.to_string(), "0.000000000404");
//! assert_eq!(host.check()?.rows, 13);
//!
//! // A caller that keeps the last row can see later that the log has not lost it, nor any row before it.
//! let kept = host.last_row().expect("the row of what was answered last").to_string();
//! guest.has_row(kept.parse().expect("what was printed"))?;
//! # std::fs::remove_dir_all(&folder).unwrap();
//! # Ok::<(), Error>(())
//! ```
//!
//! [`Store::take_all`] takes many steps as one request, with one wait for the disk. [`Store::changed`] waits for the steps
//! of others. [`Store::keep_witness`] has a small file tell, at the next start, whether the log has lost anything.
//!
//! Rights and marks are requests too. Each step is taken under the rights, which are all ten for each client until they
//! are changed.
//!
//! The file is SQLite's: its views `entries`, `chain`, `ledgers`, `clients`, `steps`, `marks`, `rights` and `total` are for
//! any tool that reads one.

mod address;
mod archive;
mod check;
mod driver;
mod engine;
mod error;
mod file;
mod journal;
mod kept;
mod latest;
mod replay;
mod replica;
mod request;
mod row;
mod server;
mod steps;
mod store;
mod witness;

pub use check::{Checked, WrongAnswer};
pub use error::{Error, Stored};
pub use file::holder::{LockHolder, lock_holder};
pub use file::processes::Stepper;
pub use file::schema::APPLICATION_ID;
pub use journal::JournalRow;
pub use latest::Latest;
#[doc(inline)]
pub use limits::{CLIENT_ROW_LIMIT, NOTE_LIMIT, OTHER_ROW_LIMIT, PROCESS_LIMIT, ROW_LIMIT};
pub use replay::Replay;
pub(crate) use request::Known;
pub use request::{Asked, Change, Told};
pub use row::{LastRow, NoLastRow};
pub use server::schema::{VERSION as SCHEMA_VERSION, schema};
#[doc(hidden)]
pub use sqlite as database;
pub use sqlite::{Fault, end_waiting};
pub use store::{PATIENCE, Store};
