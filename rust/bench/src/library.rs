//! The functions of one archive that make a log and write to it, to compare two archives.

use crate::object::Object;
use std::ffi::{CStr, c_void};
use std::mem::transmute;
use std::path::Path;

/// The numbers of a step: the client's, and of a write the value.
type Step = unsafe extern "C" fn(*mut u64, usize, *mut u64, usize, u64) -> u64;
type Write = unsafe extern "C" fn(*mut u64, usize, *mut u64, usize, u64, u64) -> u64;
type WriteWith = unsafe extern "C" fn(*mut u64, usize, *mut u64, usize, *const u64, usize, u64, u64) -> u64;
type WriteScores = unsafe extern "C" fn(*mut u64, usize, *mut u64, usize, u64, *const u16, usize) -> u64;

/// The functions of one archive that take a log to where it is written, and write. What else it has is not asked for.
pub struct Library {
    /// The number of its interface.
    pub version: u64,
    steps: Vec<(&'static CStr, Step)>,
    write: Write,
    write_with: Option<WriteWith>,
    write_scores: WriteScores,
}

/// The steps that a log of many ledgers is made by, with fresh, whose number is the client count.
pub const FRESH: &CStr = c"cindrolf_fresh";
/// Become.
pub const BECOME: &CStr = c"cindrolf_become";
/// Fetch.
pub const FETCH: &CStr = c"cindrolf_fetch";
/// Create.
pub const CREATE: &CStr = c"cindrolf_create";
/// Append.
pub const APPEND: &CStr = c"cindrolf_append";
/// Close own.
pub const CLOSE_OWN: &CStr = c"cindrolf_close_own";

impl Library {
    /// Loads a shared object that was made of an archive.
    pub fn load(path: &Path) -> Result<Self, String> {
        let object = Object::open(path)?;
        let needed = |name: &CStr| object.needed(name);
        let version = needed(c"cindrolf_version")?;
        let (write, scores) = (needed(c"cindrolf_write")?, needed(c"cindrolf_write_scores")?);
        let steps: Result<Vec<_>, String> = [FRESH, BECOME, FETCH, CREATE, APPEND, CLOSE_OWN]
            .map(|name| Ok((name, needed(name)?)))
            .into_iter()
            .collect();
        // By include/cindrolf.h these functions have had these types since its version 2, and the first one always.
        unsafe {
            Ok(Library {
                version: transmute::<*mut c_void, unsafe extern "C" fn() -> u64>(version)(),
                steps: steps?.into_iter().map(|(name, step)| (name, transmute::<*mut c_void, Step>(step))).collect(),
                write: transmute::<*mut c_void, Write>(write),
                write_with: object.find(c"cindrolf_write_with").map(|with| transmute::<*mut c_void, WriteWith>(with)),
                write_scores: transmute::<*mut c_void, WriteScores>(scores),
            })
        }
    }

    /// Whether it has the write under rights.
    pub fn has_rights(&self) -> bool {
        self.write_with.is_some()
    }

    /// A step or fresh, by its name and its number.
    pub fn step(&self, log: &mut Log, name: &CStr, number: u64) -> u64 {
        let (_, step) = self.steps.iter().find(|(each, _)| *each == name).expect("it is one of those that were loaded");
        let Log { state, entries } = log;
        unsafe { step(state.as_mut_ptr(), state.len(), entries.as_mut_ptr(), entries.len(), number) }
    }

    /// A write of some kind.
    #[inline]
    pub fn write(&self, log: &mut Log, client: u64, written: Written) -> u64 {
        let (state, entries) = (log.state.as_mut_ptr(), log.entries.as_mut_ptr());
        let (words, room) = (log.state.len(), log.entries.len());
        unsafe {
            match written {
                Written::Value(value) => (self.write)(state, words, entries, room, client, value),
                Written::Scores(scores) => {
                    (self.write_scores)(state, words, entries, room, client, scores.as_ptr(), scores.len())
                }
                Written::Under(rights, value) => {
                    let write = self.write_with.expect("who writes under rights sees first that there are any");
                    write(state, words, entries, room, rights.as_ptr(), rights.len(), client, value)
                }
            }
        }
    }
}

/// What is written.
#[derive(Clone, Copy)]
pub enum Written<'a> {
    /// A value.
    Value(u64),
    /// The sum of some scores.
    Scores(&'a [u16]),
    /// A value, under these rights.
    Under(&'a [u64], u64),
}

/// The two buffers of a log.
#[derive(Clone, PartialEq)]
pub struct Log {
    /// The state.
    pub state: Vec<u64>,
    /// The entries.
    pub entries: Vec<u64>,
}
