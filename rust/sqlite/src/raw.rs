//! SQLite's C interface, as much of it as is used. Its manual is at sqlite.org/c3ref.

use std::ffi::{c_char, c_int, c_void};

/// A connection.
#[repr(C)]
pub struct Sqlite3 {
    _private: [u8; 0],
}

/// A prepared statement.
#[repr(C)]
pub struct Sqlite3Stmt {
    _private: [u8; 0],
}

/// Called while another connection holds the lock; anything but 0 has SQLite try again.
pub type BusyHandler = unsafe extern "C" fn(data: *mut c_void, calls: c_int) -> c_int;

/// Called after a commit, with how many pages the write-ahead log has.
pub type WalHook =
    unsafe extern "C" fn(data: *mut c_void, connection: *mut Sqlite3, name: *const c_char, pages: c_int) -> c_int;

pub const OK: c_int = 0;
/// The file may not be used so.
pub const PERM: c_int = 3;
/// Another connection holds the lock.
pub const BUSY: c_int = 5;
/// The file cannot be written.
pub const READONLY: c_int = 8;
/// The disk failed.
pub const IOERR: c_int = 10;
/// The file is damaged.
pub const CORRUPT: c_int = 11;
/// The disk is full.
pub const FULL: c_int = 13;
/// The file cannot be opened.
pub const CANTOPEN: c_int = 14;
/// No read could begin for ten seconds. The process that holds the lock has stored half of what says where the write-ahead
/// log ends, and stands still.
pub const PROTOCOL: c_int = 15;
/// A value is larger than it may be.
pub const TOOBIG: c_int = 18;
/// The file is none of SQLite.
pub const NOTADB: c_int = 26;
/// The disk failed to write.
pub const IOERR_WRITE: c_int = 778;
/// A file that has lost its name. On Linux SQLite leaves it to its caller to look for that.
pub const IOERR_VNODE: c_int = 6922;
pub const ROW: c_int = 100;
pub const DONE: c_int = 101;

pub const OPEN_READONLY: c_int = 1;
pub const OPEN_READWRITE: c_int = 2;
pub const OPEN_CREATE: c_int = 4;

pub const DBCONFIG_ENABLE_TRIGGER: c_int = 1003;
pub const DBCONFIG_NO_CKPT_ON_CLOSE: c_int = 1006;
pub const DBCONFIG_DEFENSIVE: c_int = 1010;
pub const DBCONFIG_ENABLE_VIEW: c_int = 1015;
pub const LIMIT_LENGTH: c_int = 0;
pub const FCNTL_HAS_MOVED: c_int = 20;
pub const FCNTL_DATA_VERSION: c_int = 35;
pub const STMTSTATUS_REPREPARE: c_int = 5;
pub const CHECKPOINT_PASSIVE: c_int = 0;

pub const TYPE_INTEGER: c_int = 1;
pub const TYPE_TEXT: c_int = 3;
pub const TYPE_BLOB: c_int = 4;

unsafe extern "C" {
    pub fn sqlite3_open_v2(
        file: *const c_char,
        connection: *mut *mut Sqlite3,
        flags: c_int,
        vfs: *const c_char,
    ) -> c_int;
    pub fn sqlite3_close(connection: *mut Sqlite3) -> c_int;
    pub fn sqlite3_extended_result_codes(connection: *mut Sqlite3, on: c_int) -> c_int;
    pub fn sqlite3_extended_errcode(connection: *mut Sqlite3) -> c_int;
    pub fn sqlite3_errmsg(connection: *mut Sqlite3) -> *const c_char;
    pub fn sqlite3_get_autocommit(connection: *mut Sqlite3) -> c_int;
    pub fn sqlite3_libversion_number() -> c_int;
    pub fn sqlite3_threadsafe() -> c_int;
    pub fn sqlite3_db_config(connection: *mut Sqlite3, option: c_int, ...) -> c_int;
    pub fn sqlite3_limit(connection: *mut Sqlite3, limit: c_int, value: c_int) -> c_int;
    pub fn sqlite3_db_filename(connection: *mut Sqlite3, name: *const c_char) -> *const c_char;
    pub fn sqlite3_filename_wal(file: *const c_char) -> *const c_char;
    pub fn sqlite3_file_control(
        connection: *mut Sqlite3,
        name: *const c_char,
        operation: c_int,
        argument: *mut c_void,
    ) -> c_int;
    pub fn sqlite3_changes(connection: *mut Sqlite3) -> c_int;
    pub fn sqlite3_wal_hook(connection: *mut Sqlite3, hook: Option<WalHook>, data: *mut c_void) -> *mut c_void;
    pub fn sqlite3_wal_checkpoint_v2(
        connection: *mut Sqlite3,
        name: *const c_char,
        mode: c_int,
        pages: *mut c_int,
        copied: *mut c_int,
    ) -> c_int;
    pub fn sqlite3_stmt_status(statement: *mut Sqlite3Stmt, counter: c_int, reset: c_int) -> c_int;
    pub fn sqlite3_busy_handler(connection: *mut Sqlite3, handler: Option<BusyHandler>, data: *mut c_void) -> c_int;
    pub fn sqlite3_prepare_v2(
        connection: *mut Sqlite3,
        text: *const c_char,
        bytes: c_int,
        statement: *mut *mut Sqlite3Stmt,
        rest: *mut *const c_char,
    ) -> c_int;
    pub fn sqlite3_step(statement: *mut Sqlite3Stmt) -> c_int;
    pub fn sqlite3_reset(statement: *mut Sqlite3Stmt) -> c_int;
    pub fn sqlite3_finalize(statement: *mut Sqlite3Stmt) -> c_int;
    pub fn sqlite3_bind_null(statement: *mut Sqlite3Stmt, place: c_int) -> c_int;
    pub fn sqlite3_bind_int64(statement: *mut Sqlite3Stmt, place: c_int, number: i64) -> c_int;
    pub fn sqlite3_bind_blob(
        statement: *mut Sqlite3Stmt,
        place: c_int,
        bytes: *const c_void,
        length: c_int,
        destructor: *const c_void,
    ) -> c_int;
    pub fn sqlite3_bind_text(
        statement: *mut Sqlite3Stmt,
        place: c_int,
        text: *const c_char,
        length: c_int,
        destructor: *const c_void,
    ) -> c_int;
    pub fn sqlite3_column_type(statement: *mut Sqlite3Stmt, column: c_int) -> c_int;
    pub fn sqlite3_column_int64(statement: *mut Sqlite3Stmt, column: c_int) -> i64;
    pub fn sqlite3_column_blob(statement: *mut Sqlite3Stmt, column: c_int) -> *const c_void;
    pub fn sqlite3_column_bytes(statement: *mut Sqlite3Stmt, column: c_int) -> c_int;
}
