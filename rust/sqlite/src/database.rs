//! A safe connection to an SQLite file, and its statements.

use crate::Fault;
use crate::raw::{self as sqlite, Sqlite3, Sqlite3Stmt};
use crate::wait::Wait;
use limits::FIELD_LIMIT;
use std::ffi::{CStr, CString, OsStr, c_char, c_int, c_void};
use std::os::unix::ffi::OsStrExt;
use std::path::{Path, PathBuf};
use std::ptr;
use std::rc::Rc;
use std::time::Duration;

/// How a file is opened.
#[derive(Clone, Copy, Debug, PartialEq, Eq)]
pub enum Mode {
    /// It has to be there.
    Existing,
    /// It is made where it is not there.
    Create,
    /// It has to be there, and is not changed.
    ReadOnly,
}

/// The connection itself. Statements share it, so that it is closed after the last of them.
struct Handle {
    connection: *mut Sqlite3,
    process: u32,
    // SQLite has the addresses of both.
    wait: *mut Wait,
    /// How many pages the write-ahead log had after this connection's last commit.
    pages: *mut c_int,
}

impl Drop for Handle {
    fn drop(&mut self) {
        // A forked child must not close what is its parent's: that could take the parent's locks.
        if self.process == std::process::id() {
            // SAFETY: the connection was opened, all its statements are finalized, and nobody uses it, `wait` or `pages` afterwards.
            unsafe {
                sqlite::sqlite3_close(self.connection);
                drop(Box::from_raw(self.wait));
                drop(Box::from_raw(self.pages));
            }
        }
    }
}

/// A connection to a file.
#[derive(Clone)]
pub struct Database(Rc<Handle>);

/// A prepared statement.
pub struct Statement {
    handle: Rc<Handle>,
    statement: *mut Sqlite3Stmt,
}

/// A value of a column, or of a parameter.
#[derive(Clone, Copy, Debug, PartialEq, Eq)]
pub enum Value<'a> {
    /// No value.
    Null,
    /// A number.
    Integer(i64),
    /// Bytes.
    Blob(&'a [u8]),
    /// A text.
    Text(&'a str),
}

impl Handle {
    /// The fault that SQLite told of last.
    fn fault(&self) -> Fault {
        // SAFETY: the connection is open, and its message is a text that stays until the next call.
        unsafe {
            let message = CStr::from_ptr(sqlite::sqlite3_errmsg(self.connection));
            let code = sqlite::sqlite3_extended_errcode(self.connection);
            Fault { code, message: message.to_string_lossy().into_owned() }
        }
    }

    fn checked(&self, code: c_int) -> Result<(), Fault> {
        if code == sqlite::OK { Ok(()) } else { Err(self.fault()) }
    }
}

impl Database {
    /// Opens a file. Its busy handler waits up to `patience` for a lock.
    pub fn open(path: &Path, mode: Mode, patience: Duration) -> Result<Self, Fault> {
        // A name that SQLite would take for something else is given as one in this folder.
        let mut name = path.as_os_str().as_bytes().to_vec();
        if !name.starts_with(b"/") {
            name.splice(..0, *b"./");
        }
        let no_name = Fault { code: sqlite::CANTOPEN, message: "the name of the file has a zero byte".into() };
        let name = CString::new(name).map_err(|_| no_name)?;
        let flags = match mode {
            Mode::Existing => sqlite::OPEN_READWRITE,
            Mode::Create => sqlite::OPEN_READWRITE | sqlite::OPEN_CREATE,
            Mode::ReadOnly => sqlite::OPEN_READONLY,
        };
        let mut connection = ptr::null_mut();
        // SAFETY: the name ends with a zero byte, and `connection` is set even where opening fails.
        let code = unsafe { sqlite::sqlite3_open_v2(name.as_ptr(), &mut connection, flags, ptr::null()) };
        if connection.is_null() {
            return Err(Fault { code, message: "out of memory".into() });
        }
        let wait = Box::into_raw(Box::new(Wait::new(patience)));
        let pages = Box::into_raw(Box::new(0));
        let handle = Handle { connection, process: std::process::id(), wait, pages };
        handle.checked(code)?;
        // SAFETY: the connection is open; the handler gets `wait`, which lives as long as the handle.
        unsafe {
            handle.checked(sqlite::sqlite3_extended_result_codes(connection, 1))?;
            handle.checked(sqlite::sqlite3_busy_handler(connection, Some(Wait::again), wait.cast()))?;
        }
        Ok(Database(Rc::new(handle)))
    }

    /// Opens a file of which nothing is trusted yet. Its triggers and views do not run and its values are no larger than
    /// a log's. SQLite copies the write-ahead log to the file neither by itself nor on closing: it may do that while
    /// another process begins the log again, and then loses what that one writes.
    pub fn open_log(path: &Path, mode: Mode, patience: Duration) -> Result<Self, Fault> {
        let database = Database::open(path, mode, patience)?;
        database.set(sqlite::DBCONFIG_NO_CKPT_ON_CLOSE, true)?;
        database.set(sqlite::DBCONFIG_DEFENSIVE, true)?;
        database.set(sqlite::DBCONFIG_ENABLE_TRIGGER, false)?;
        database.set(sqlite::DBCONFIG_ENABLE_VIEW, false)?;
        // SAFETY: the connection is open; the hook gets `pages`, which lives as long as the handle.
        unsafe {
            sqlite::sqlite3_limit(database.0.connection, sqlite::LIMIT_LENGTH, FIELD_LIMIT);
            sqlite::sqlite3_wal_hook(database.0.connection, Some(note_pages), database.0.pages.cast());
        }
        Ok(database)
    }

    fn set(&self, option: c_int, on: bool) -> Result<(), Fault> {
        let none: *mut c_int = ptr::null_mut();
        // SAFETY: the connection is open, and these options take a number and where to put the new one, or nothing.
        self.0.checked(unsafe { sqlite::sqlite3_db_config(self.0.connection, option, c_int::from(on), none) })
    }

    /// Has SQLite copy the write-ahead log to the file on closing, and remove it, where this is the last connection of
    /// all. SQLite then holds the file's exclusive lock, so that nobody else can write meanwhile.
    pub fn copy_on_closing(&self) -> Result<(), Fault> {
        self.set(sqlite::DBCONFIG_NO_CKPT_ON_CLOSE, false)
    }

    /// Copies the write-ahead log to the file as far as readers let it, and says whether that is all of it. The caller
    /// holds the write lock by another connection.
    pub fn copy_under_lock(&self) -> Result<bool, Fault> {
        let (mut pages, mut copied) = (-1, -1);
        // SAFETY: the connection is open, and both numbers live through the call.
        let code = unsafe {
            let passive = sqlite::CHECKPOINT_PASSIVE;
            sqlite::sqlite3_wal_checkpoint_v2(self.0.connection, MAIN.as_ptr(), passive, &mut pages, &mut copied)
        };
        self.0.checked(code)?;
        Ok(pages == copied)
    }

    /// How many pages the write-ahead log had after this connection's last commit.
    pub fn pages(&self) -> c_int {
        // SAFETY: `pages` lives as long as the handle, and SQLite uses it only within its own calls, of which none runs.
        unsafe { *self.0.pages }
    }

    /// The file's whole name, without symbolic links.
    pub fn file(&self) -> PathBuf {
        // SAFETY: the connection is open; the name ends with a zero byte and stays as long as it.
        path_of(unsafe { CStr::from_ptr(sqlite::sqlite3_db_filename(self.0.connection, MAIN.as_ptr())) })
    }

    /// The whole name of the write-ahead log beside it.
    pub fn beside(&self) -> PathBuf {
        // SAFETY: as above, and what has a file has the name of its write-ahead log.
        path_of(unsafe {
            let file = sqlite::sqlite3_db_filename(self.0.connection, MAIN.as_ptr());
            CStr::from_ptr(sqlite::sqlite3_filename_wal(file))
        })
    }

    /// Whether the file's name leads to another file than this connection has open, or to none.
    pub fn moved(&self) -> Result<bool, Fault> {
        self.asked(sqlite::FCNTL_HAS_MOVED).map(|moved| moved != 0)
    }

    /// The version of the content that this connection's last transaction has read or written. Where another one has the
    /// same, this connection has seen no commit in between, its own among them: every row is as it was.
    pub fn version(&self) -> Result<c_int, Fault> {
        self.asked(sqlite::FCNTL_DATA_VERSION)
    }

    /// The number that SQLite answers to a question about the file.
    fn asked(&self, question: c_int) -> Result<c_int, Fault> {
        let mut answer: c_int = 0;
        let address = (&raw mut answer).cast();
        // SAFETY: the connection is open, and each of these questions sets a number.
        let code = unsafe { sqlite::sqlite3_file_control(self.0.connection, MAIN.as_ptr(), question, address) };
        self.0.checked(code)?;
        Ok(answer)
    }

    /// How many rows the last statement that inserts has inserted.
    pub fn inserted(&self) -> c_int {
        // SAFETY: the connection is open.
        unsafe { sqlite::sqlite3_changes(self.0.connection) }
    }

    /// The statement in this text, which has one.
    pub fn prepare(&self, text: &str) -> Result<Statement, Fault> {
        let length = c_int::try_from(text.len()).expect("a short text");
        let mut statement = ptr::null_mut();
        // SAFETY: the text has this many bytes.
        let code = unsafe {
            sqlite::sqlite3_prepare_v2(self.0.connection, text.as_ptr().cast(), length, &mut statement, ptr::null_mut())
        };
        self.0.checked(code)?;
        Ok(Statement { handle: Rc::clone(&self.0), statement })
    }

    /// Runs a statement to its end.
    pub fn execute(&self, text: &str) -> Result<(), Fault> {
        self.prepare(text)?.execute(&[])
    }

    /// The number in the first column of the first row.
    pub fn number(&self, text: &str) -> Result<Option<i64>, Fault> {
        self.prepare(text)?.first(&[], |row| match row.value(0) {
            Value::Integer(number) => Some(number),
            _ => None,
        })
    }

    /// The text in the first column of the first row.
    pub fn text(&self, text: &str) -> Result<Option<String>, Fault> {
        self.prepare(text)?.first(&[], |row| match row.value(0) {
            Value::Text(text) => Some(text.to_owned()),
            _ => None,
        })
    }

    /// Has the busy handler wait up to `patience` from now on.
    pub fn set_patience(&self, patience: Duration) {
        // SAFETY: `wait` lives as long as the handle, and SQLite uses it only within its own calls, of which none runs.
        unsafe { (*self.0.wait).set_patience(patience) };
    }

    /// Whether a transaction is open.
    pub fn in_transaction(&self) -> bool {
        // SAFETY: the connection is open.
        unsafe { sqlite::sqlite3_get_autocommit(self.0.connection) == 0 }
    }
}

/// The name of a connection's own file, as against those that are attached.
const MAIN: &CStr = c"main";

fn path_of(name: &CStr) -> PathBuf {
    OsStr::from_bytes(name.to_bytes()).into()
}

/// SQLite's hook after a commit.
///
/// # Safety
///
/// `data` is the address of a number that nobody else uses meanwhile.
unsafe extern "C" fn note_pages(data: *mut c_void, _: *mut Sqlite3, _: *const c_char, pages: c_int) -> c_int {
    // SAFETY: by the contract.
    unsafe { *data.cast::<c_int>() = pages };
    sqlite::OK
}

impl Statement {
    /// How often SQLite had to prepare it once more, since somebody had changed the schema.
    pub fn prepared_again(&self) -> c_int {
        // SAFETY: the statement is prepared.
        unsafe { sqlite::sqlite3_stmt_status(self.statement, sqlite::STMTSTATUS_REPREPARE, 0) }
    }

    /// Runs it to its end with these parameters.
    pub fn execute(&mut self, parameters: &[Value<'_>]) -> Result<(), Fault> {
        self.each(parameters, |_| Ok::<(), Fault>(()))
    }

    /// Calls `seen` with each row, until it fails. The statement is reset in any case: one that is not stands in the way
    /// of the next transaction.
    pub fn each<E: From<Fault>>(
        &mut self,
        parameters: &[Value<'_>],
        mut seen: impl FnMut(Row<'_>) -> Result<(), E>,
    ) -> Result<(), E> {
        let result = self.rows(parameters, &mut seen);
        // SAFETY: the statement is prepared. The code only repeats what the last step told.
        unsafe { sqlite::sqlite3_reset(self.statement) };
        result
    }

    /// What `seen` makes of the first row, if there is one.
    pub fn first<T>(
        &mut self,
        parameters: &[Value<'_>],
        mut seen: impl FnMut(Row<'_>) -> Option<T>,
    ) -> Result<Option<T>, Fault> {
        let mut found = None;
        self.each(parameters, |row| {
            if found.is_none() {
                found = seen(row);
            }
            Ok::<(), Fault>(())
        })?;
        Ok(found)
    }

    fn rows<E: From<Fault>>(
        &mut self,
        parameters: &[Value<'_>],
        seen: &mut impl FnMut(Row<'_>) -> Result<(), E>,
    ) -> Result<(), E> {
        for (place, &value) in (1..).zip(parameters) {
            self.bind(place, value)?;
        }
        loop {
            // SAFETY: the statement is prepared, and its parameters are bound to values that live through this call.
            match unsafe { sqlite::sqlite3_step(self.statement) } {
                sqlite::ROW => seen(Row(self))?,
                sqlite::DONE => return Ok(()),
                _ => return Err(self.handle.fault().into()),
            }
        }
    }

    fn bind(&mut self, place: c_int, value: Value<'_>) -> Result<(), Fault> {
        // SQLite copies what it is given with this.
        let transient = usize::MAX as *const c_void;
        let length = |bytes: &[u8]| c_int::try_from(bytes.len()).expect("a short value");
        // SAFETY: the statement is reset, and the bytes are copied.
        let code = unsafe {
            match value {
                Value::Null => sqlite::sqlite3_bind_null(self.statement, place),
                Value::Integer(number) => sqlite::sqlite3_bind_int64(self.statement, place, number),
                Value::Blob(bytes) => {
                    let start = bytes.as_ptr().cast();
                    sqlite::sqlite3_bind_blob(self.statement, place, start, length(bytes), transient)
                }
                Value::Text(text) => {
                    let start = text.as_ptr().cast();
                    sqlite::sqlite3_bind_text(self.statement, place, start, length(text.as_bytes()), transient)
                }
            }
        };
        self.handle.checked(code)
    }
}

impl Drop for Statement {
    fn drop(&mut self) {
        if self.handle.process == std::process::id() {
            // SAFETY: the statement was prepared, and nobody uses it afterwards.
            unsafe { sqlite::sqlite3_finalize(self.statement) };
        }
    }
}

/// The row that a statement stands at.
#[derive(Clone, Copy)]
pub struct Row<'a>(&'a Statement);

impl<'a> Row<'a> {
    /// The value in a column, from 0. A column that is not there, a real number and a text of other bytes than UTF-8 are
    /// none.
    pub fn value(self, column: c_int) -> Value<'a> {
        let statement = self.0.statement;
        // SAFETY: the statement stands at a row; the bytes stay until it moves on, which needs it exclusively.
        unsafe {
            match sqlite::sqlite3_column_type(statement, column) {
                sqlite::TYPE_INTEGER => Value::Integer(sqlite::sqlite3_column_int64(statement, column)),
                kind @ (sqlite::TYPE_BLOB | sqlite::TYPE_TEXT) => {
                    let start = sqlite::sqlite3_column_blob(statement, column).cast::<u8>();
                    let length = sqlite::sqlite3_column_bytes(statement, column) as usize;
                    let bytes = if start.is_null() { &[] } else { std::slice::from_raw_parts(start, length) };
                    match kind {
                        sqlite::TYPE_BLOB => Value::Blob(bytes),
                        _ => str::from_utf8(bytes).map_or(Value::Null, Value::Text),
                    }
                }
                _ => Value::Null,
            }
        }
    }
}
