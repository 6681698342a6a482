//! libpq's C interface, as much of it as is used. Its manual is at postgresql.org/docs/15/libpq.html.
//!
//! The library is loaded when the first connection is made. So a program that keeps its logs in files neither needs it
//! nor loads it, nor the libraries for TLS and for directories that it uses.

use std::ffi::{CStr, c_char, c_int, c_void};
use std::sync::OnceLock;

/// A connection.
#[repr(C)]
pub struct PGconn {
    _private: [u8; 0],
}

/// What a command gave.
#[repr(C)]
pub struct PGresult {
    _private: [u8; 0],
}

pub const CONNECTION_OK: c_int = 0;
pub const COMMAND_OK: c_int = 1;
pub const TUPLES_OK: c_int = 2;
pub const DIAG_SQLSTATE: c_int = b'C' as c_int;

/// Called with each notice and warning of the server.
pub type NoticeReceiver = unsafe extern "C" fn(data: *mut c_void, result: *const PGresult);

/// The interface's number, which Debian's package libpq5 has had since PostgreSQL 8.
const LIBRARY: &CStr = c"libpq.so.5";

const RTLD_NOW: c_int = 2;

unsafe extern "C" {
    fn dlopen(name: *const c_char, flags: c_int) -> *mut c_void;
    fn dlsym(library: *mut c_void, name: *const c_char) -> *mut c_void;
    pub fn poll(fds: *mut PollFd, count: u64, milliseconds: c_int) -> c_int;
}

/// What poll(2) waits for.
#[repr(C)]
pub struct PollFd {
    pub fd: c_int,
    pub events: i16,
    pub revents: i16,
}

pub const POLLIN: i16 = 1;
pub const POLLOUT: i16 = 4;

macro_rules! functions {
    ($($name:ident($($argument:ty),*) $(-> $result:ty)?;)*) => {
        /// The library's functions.
        #[allow(non_snake_case)]
        pub struct Libpq {
            $(pub $name: unsafe extern "C" fn($($argument),*) $(-> $result)?,)*
        }

        impl Libpq {
            /// The functions in a library that is loaded, if it has them all.
            ///
            /// # Safety
            ///
            /// Where the library has a function of one of these names, it has these arguments and this result.
            unsafe fn of(library: *mut c_void) -> Option<Libpq> {
                Some(Libpq {
                    $($name: {
                        let name = concat!(stringify!($name), "\0");
                        // SAFETY: the library is loaded, and the name ends with a zero byte; by the contract the address
                        // is that of such a function.
                        unsafe {
                            let address = dlsym(library, name.as_ptr().cast());
                            if address.is_null() {
                                return None;
                            }
                            std::mem::transmute::<*mut c_void, unsafe extern "C" fn($($argument),*) $(-> $result)?>(address)
                        }
                    },)*
                })
            }
        }
    };
}

functions! {
    PQconnectdbParams(*const *const c_char, *const *const c_char, c_int) -> *mut PGconn;
    PQfinish(*mut PGconn);
    PQstatus(*const PGconn) -> c_int;
    PQerrorMessage(*const PGconn) -> *const c_char;
    PQsocket(*const PGconn) -> c_int;
    PQsetnonblocking(*mut PGconn, c_int) -> c_int;
    PQsetNoticeReceiver(*mut PGconn, NoticeReceiver, *mut c_void) -> Option<NoticeReceiver>;
    PQsendQuery(*mut PGconn, *const c_char) -> c_int;
    PQflush(*mut PGconn) -> c_int;
    PQconsumeInput(*mut PGconn) -> c_int;
    PQisBusy(*mut PGconn) -> c_int;
    PQgetResult(*mut PGconn) -> *mut PGresult;
    PQclear(*mut PGresult);
    PQresultStatus(*const PGresult) -> c_int;
    PQresultErrorField(*const PGresult, c_int) -> *const c_char;
    PQresultErrorMessage(*const PGresult) -> *const c_char;
    PQntuples(*const PGresult) -> c_int;
    PQgetisnull(*const PGresult, c_int, c_int) -> c_int;
    PQgetvalue(*const PGresult, c_int, c_int) -> *const c_char;
    PQgetlength(*const PGresult, c_int, c_int) -> c_int;
}

/// The library, which is loaded by the first call.
pub fn libpq() -> Option<&'static Libpq> {
    static LOADED: OnceLock<Option<Libpq>> = OnceLock::new();
    let load = || {
        // SAFETY: the name ends with a zero byte; what is called libpq.so.5 has these functions.
        unsafe {
            let library = dlopen(LIBRARY.as_ptr(), RTLD_NOW);
            if library.is_null() { None } else { Libpq::of(library) }
        }
    };
    LOADED.get_or_init(load).as_ref()
}
