//! A connection to a server, safely, with a deadline for each command.
//!
//! It uses only the simple query protocol: a command is one message, which the server starts when all of it is there,
//! and whose transaction it ends without another byte of the client. With `PQexecPrepared` a command is four messages.
//! If it is cut off before the last, its transaction stays open and its lock held as long as the connection seems
//! alive: no timeout of the server ends that.

use crate::Fault;
use crate::raw::{self, Libpq, PGconn, PGresult, libpq};
use std::ffi::{CStr, CString, c_char, c_int, c_void};
use std::ptr;
use std::time::Instant;

/// What libpq is told besides the address, which wins where it says otherwise. A host has two seconds to answer, and a
/// connection that is dead is found within some seconds.
const SETTINGS: [(&str, &str); 7] = [
    ("connect_timeout", "2"),
    ("keepalives_idle", "2"),
    ("keepalives_interval", "1"),
    ("keepalives_count", "3"),
    ("tcp_user_timeout", "5000"),
    ("fallback_application_name", "cindrolf"),
    ("client_encoding", "UTF8"),
];

/// The longest that one wait takes before the deadline is looked at again.
const LONGEST_WAIT: u128 = 60_000;

/// A connection.
pub struct Connection {
    pq: &'static Libpq,
    raw: *mut PGconn,
    /// 1 after a warning. libpq has its address.
    warned: *mut u64,
}

// SAFETY: libpq lets any thread use a connection, one at a time, and all use of it is exclusive here.
unsafe impl Send for Connection {}

/// Notes that the server warned.
///
/// # Safety
///
/// `data` is the address of a number that only the connection uses besides, and not within calls of libpq.
unsafe extern "C" fn note_warning(data: *mut c_void, _: *const PGresult) {
    // SAFETY: by the contract.
    unsafe { *data.cast::<u64>() = 1 };
}

impl Connection {
    /// Connects to the first host of the address that can be written to.
    pub fn open(address: &str) -> Result<Self, Fault> {
        let none = "libpq is needed, and cannot be loaded: install Debian's package libpq5";
        let pq = libpq().ok_or_else(|| Fault::Unreachable(none.into()))?;
        let text =
            |text: &str| CString::new(text).map_err(|_| Fault::Unreachable("the address has a zero byte".into()));
        let pairs = SETTINGS.into_iter().chain([("target_session_attrs", "read-write"), ("dbname", address)]);
        let pairs: Vec<(CString, CString)> =
            pairs.map(|(key, value)| Ok((text(key)?, text(value)?))).collect::<Result<_, Fault>>()?;
        let list = |pick: fn(&(CString, CString)) -> *const c_char| {
            pairs.iter().map(pick).chain([ptr::null()]).collect::<Vec<_>>()
        };
        let (keys, values) = (list(|pair| pair.0.as_ptr()), list(|pair| pair.1.as_ptr()));
        // SAFETY: both lists end with a null, and their texts with a zero byte.
        let raw = unsafe { (pq.PQconnectdbParams)(keys.as_ptr(), values.as_ptr(), 1) };
        if raw.is_null() {
            return Err(Fault::Unreachable("out of memory".into()));
        }
        let connection = Connection { pq, raw, warned: Box::into_raw(Box::new(0)) };
        // SAFETY: the connection is there, even where connecting failed.
        unsafe {
            if (pq.PQstatus)(raw) != raw::CONNECTION_OK {
                return Err(Fault::Unreachable(connection.message()));
            }
            (pq.PQsetnonblocking)(raw, 1);
            (pq.PQsetNoticeReceiver)(raw, note_warning, connection.warned.cast());
        }
        Ok(connection)
    }

    fn message(&self) -> String {
        // SAFETY: the connection is there, and its message is a text.
        let message = unsafe { CStr::from_ptr((self.pq.PQerrorMessage)(self.raw)) };
        message.to_string_lossy().trim().replace('\n', " ")
    }

    fn lost(&self) -> Fault {
        Fault::Lost(self.message())
    }

    /// Runs a command of one or more statements as one message, and gives what the last of them gave.
    pub fn run(&mut self, text: &str, deadline: Instant) -> Result<Rows, Fault> {
        let text = CString::new(text).map_err(|_| Fault::Unreachable("a command has a zero byte".into()))?;
        // SAFETY: only libpq uses the number besides, within its calls; the connection is open, and the text ends with a
        // zero byte and is copied.
        let sent = unsafe {
            *self.warned = 0;
            (self.pq.PQsendQuery)(self.raw, text.as_ptr())
        };
        if sent != 1 {
            return Err(self.lost());
        }
        let (mut last, mut refused) = (None, None);
        while let Some(rows) = self.next_result(deadline)? {
            match rows.fault() {
                None => last = Some(rows),
                Some(fault) => refused = Some(fault),
            }
        }
        if let Some(fault) = refused {
            return Err(fault);
        }
        // A commit whose wait for the standby was cancelled is answered as if it were done, but for a warning.
        // SAFETY: as above.
        if unsafe { *self.warned } != 0 {
            return Err(Fault::Lost("the server warned that it may not be on the standby".into()));
        }
        last.ok_or_else(|| self.lost())
    }

    /// The next result of a command, until there are no more.
    fn next_result(&mut self, deadline: Instant) -> Result<Option<Rows>, Fault> {
        self.wait(deadline)?;
        // SAFETY: the connection is open and not busy.
        let raw = unsafe { (self.pq.PQgetResult)(self.raw) };
        if raw.is_null() {
            return Ok(None);
        }
        let rows = Rows { pq: self.pq, raw };
        // SAFETY: the connection is there.
        if unsafe { (self.pq.PQstatus)(self.raw) } != raw::CONNECTION_OK {
            return Err(self.lost());
        }
        Ok(Some(rows))
    }

    /// Waits until the next result is there, or the deadline past.
    fn wait(&mut self, deadline: Instant) -> Result<(), Fault> {
        loop {
            // SAFETY: the connection is open.
            let (pending, busy) = unsafe { ((self.pq.PQflush)(self.raw), (self.pq.PQisBusy)(self.raw)) };
            if pending < 0 {
                return Err(self.lost());
            }
            if busy == 0 {
                return Ok(());
            }
            let left = deadline.saturating_duration_since(Instant::now());
            if left.is_zero() {
                return Err(Fault::Lost("no answer came in time".into()));
            }
            let events = if pending > 0 { raw::POLLIN | raw::POLLOUT } else { raw::POLLIN };
            // SAFETY: one descriptor, of the open connection.
            unsafe {
                let mut fd = raw::PollFd { fd: (self.pq.PQsocket)(self.raw), events, revents: 0 };
                raw::poll(&mut fd, 1, left.as_millis().min(LONGEST_WAIT) as c_int + 1);
                if fd.revents != 0 && (self.pq.PQconsumeInput)(self.raw) != 1 {
                    return Err(self.lost());
                }
            }
        }
    }
}

impl Drop for Connection {
    fn drop(&mut self) {
        // SAFETY: nobody uses them afterwards.
        unsafe {
            (self.pq.PQfinish)(self.raw);
            drop(Box::from_raw(self.warned));
        }
    }
}

/// What a command gave.
pub struct Rows {
    pq: &'static Libpq,
    raw: *mut PGresult,
}

impl Rows {
    fn fault(&self) -> Option<Fault> {
        // SAFETY: the result is there; its texts live as long as it.
        let (status, text, state) = unsafe {
            let text = CStr::from_ptr((self.pq.PQresultErrorMessage)(self.raw)).to_string_lossy();
            let state = (self.pq.PQresultErrorField)(self.raw, raw::DIAG_SQLSTATE);
            let state = if state.is_null() { None } else { CStr::from_ptr(state).to_str().ok() };
            ((self.pq.PQresultStatus)(self.raw), text.trim().replace('\n', " "), state)
        };
        match (status, state) {
            (raw::COMMAND_OK | raw::TUPLES_OK, _) => None,
            // The server or its process ends, the connection fails, whether it was committed is not known, or this is
            // no primary any more.
            (_, Some(state))
                if !(state.starts_with("57P") || state.starts_with("08") || ["40003", "25006"].contains(&state)) =>
            {
                Some(Fault::Refused { state: state.to_owned(), text })
            }
            _ => Some(Fault::Lost(text)),
        }
    }

    /// How many rows there are.
    pub fn count(&self) -> usize {
        // SAFETY: the result is there.
        unsafe { (self.pq.PQntuples)(self.raw) as usize }
    }

    /// The text in a column of a row. A value that is null, or a place that is not there, is none.
    pub fn text(&self, row: usize, column: usize) -> Option<&str> {
        let (row, column) = (row as c_int, column as c_int);
        // SAFETY: the result is there; libpq answers null for places that are not.
        unsafe {
            if (self.pq.PQgetisnull)(self.raw, row, column) != 0 {
                return None;
            }
            let start = (self.pq.PQgetvalue)(self.raw, row, column).cast::<u8>();
            let length = (self.pq.PQgetlength)(self.raw, row, column) as usize;
            str::from_utf8(std::slice::from_raw_parts(start, length)).ok()
        }
    }

    /// The number in a column of a row.
    pub fn number(&self, row: usize, column: usize) -> Option<i64> {
        self.text(row, column)?.parse().ok()
    }
}

impl Drop for Rows {
    fn drop(&mut self) {
        // SAFETY: nobody uses it afterwards.
        unsafe { (self.pq.PQclear)(self.raw) };
    }
}
