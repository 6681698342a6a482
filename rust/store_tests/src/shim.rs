//! SQLite's own way to files, with a place to pause in it: between what a checkpoint reads and what it goes on to do.
//!
//! A checkpoint takes its lock, reads how long the write-ahead log is, gives back what it may have mapped of the file, and
//! then copies. SQLite calls its system layer for the first and the third of these.

use std::cell::RefCell;
use std::ffi::{c_char, c_int, c_void};
use std::sync::OnceLock;
use std::sync::mpsc::{Receiver, Sender, channel};
use std::time::Duration;

/// Where a thread pauses.
#[derive(Clone, Copy, Debug, PartialEq, Eq)]
pub enum Place {
    /// Before it takes the lock of those who copy the write-ahead log.
    BeforeLock,
    /// Once it has the lock, and has read how long the log is.
    AfterLook,
}

/// The other end of a thread that pauses.
pub struct Pauses {
    reached: Receiver<Place>,
    go: Sender<()>,
}

impl Pauses {
    /// Waits until the thread pauses. None where it does not in this time, or has ended.
    pub fn reached(&self, within: Duration) -> Option<Place> {
        self.reached.recv_timeout(within).ok()
    }

    /// Has the thread go on.
    pub fn go(&self) {
        let _ = self.go.send(());
    }
}

/// What a thread that pauses has of it: the places that are still to come.
struct Paused {
    places: Vec<Place>,
    reached: Sender<Place>,
    go: Receiver<()>,
}

thread_local! {
    static PAUSED: RefCell<Option<Paused>> = const { RefCell::new(None) };
}

/// The pauses of a thread, which gives them to [`pause_at`].
pub struct Arm(Paused);

/// Pauses for a thread, each once and in this order.
pub fn pauses(places: &[Place]) -> (Arm, Pauses) {
    let ((reached, told), (go, gone)) = (channel(), channel());
    let places = places.iter().rev().copied().collect();
    (Arm(Paused { places, reached, go: gone }), Pauses { reached: told, go })
}

/// Has this thread pause from now on.
pub fn pause_at(Arm(paused): Arm) {
    PAUSED.with(|place| *place.borrow_mut() = Some(paused));
}

/// How many pauses of this thread are still to come.
pub fn pauses_left() -> usize {
    PAUSED.with(|paused| paused.borrow().as_ref().map_or(0, |paused| paused.places.len()))
}

fn passes(place: Place) {
    PAUSED.with(|paused| {
        let mut paused = paused.borrow_mut();
        let Some(paused) = paused.as_mut().filter(|paused| paused.places.last() == Some(&place)) else { return };
        paused.places.pop();
        if paused.reached.send(place).is_ok() {
            let _ = paused.go.recv();
        }
    });
}

/// SQLite's table of the functions on an open file, up to its third version.
#[repr(C)]
#[derive(Clone, Copy)]
struct Methods {
    version: c_int,
    before: [usize; 13],
    lock: unsafe extern "C" fn(*mut File, c_int, c_int, c_int) -> c_int,
    between: [usize; 3],
    unfetch: unsafe extern "C" fn(*mut File, i64, *mut c_void) -> c_int,
}

/// An open file. What comes after is the system layer's own.
#[repr(C)]
struct File {
    methods: *const Methods,
}

type Open = unsafe extern "C" fn(*mut Layer, *const c_char, *mut File, c_int, *mut c_int) -> c_int;

/// SQLite's table of the functions of a system layer, up to its third version.
#[repr(C)]
#[derive(Clone, Copy)]
struct Layer {
    version: c_int,
    file_size: c_int,
    longest_path: c_int,
    next: *mut Layer,
    name: *const c_char,
    own: *mut c_void,
    open: Open,
    rest: [usize; 15],
}

unsafe extern "C" {
    fn sqlite3_vfs_find(name: *const c_char) -> *mut Layer;
    fn sqlite3_vfs_register(layer: *mut Layer, make_default: c_int) -> c_int;
}

const MAIN_FILE: c_int = 0x100;
const LOCK_EXCLUSIVE: c_int = 2 | 8;
const CHECKPOINT_LOCK: c_int = 1;

/// The functions as they were.
struct Plain {
    open: Open,
    methods: OnceLock<Methods>,
    paused: OnceLock<Methods>,
}

static PLAIN: OnceLock<Plain> = OnceLock::new();

/// Has every connection that is opened from now on go through here. Only the process's first call does that.
pub fn install() {
    PLAIN.get_or_init(|| {
        // SAFETY: SQLite gives its default layer, which stays; a copy with another `open` is registered, and stays too.
        unsafe {
            let mut layer = *sqlite3_vfs_find(std::ptr::null());
            let plain = Plain { open: layer.open, methods: OnceLock::new(), paused: OnceLock::new() };
            layer.open = open;
            layer.name = c"pausing".as_ptr();
            assert_eq!(sqlite3_vfs_register(Box::leak(Box::new(layer)), 1), 0);
            plain
        }
    });
}

fn plain() -> &'static Plain {
    PLAIN.get().expect("it is set before anything is opened")
}

unsafe extern "C" fn open(
    layer: *mut Layer,
    name: *const c_char,
    file: *mut File,
    flags: c_int,
    given: *mut c_int,
) -> c_int {
    let plain = plain();
    // SAFETY: as SQLite calls it. A file that was opened has a table that stays; the one put in its place stays too.
    unsafe {
        let code = (plain.open)(layer, name, file, flags, given);
        if code == 0 && flags & MAIN_FILE != 0 && (*(*file).methods).version >= 3 {
            let methods = *plain.methods.get_or_init(|| *(*file).methods);
            (*file).methods = plain.paused.get_or_init(|| Methods { lock, unfetch, ..methods });
        }
        code
    }
}

unsafe extern "C" fn lock(file: *mut File, first: c_int, count: c_int, flags: c_int) -> c_int {
    if first == CHECKPOINT_LOCK && count == 1 && flags == LOCK_EXCLUSIVE {
        passes(Place::BeforeLock);
    }
    // SAFETY: as SQLite calls it.
    unsafe { (plain().methods.get().expect("a file is open").lock)(file, first, count, flags) }
}

unsafe extern "C" fn unfetch(file: *mut File, offset: i64, page: *mut c_void) -> c_int {
    passes(Place::AfterLook);
    // SAFETY: as SQLite calls it.
    unsafe { (plain().methods.get().expect("a file is open").unfetch)(file, offset, page) }
}
