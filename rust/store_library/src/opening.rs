//! Opening, creating and closing a log, and what a handle says about its last call.

use crate::failure::Failure;
use crate::handles::{self, Opaque, without};
use crate::memory::{Room, path, write_text};
use cindrolf::{Capacity, Refusal};
use std::ffi::{c_char, c_int};
use std::path::Path;
use store::{Error, Store};

/// Opens a log by one of the store's ways, and gives its handle.
///
/// # Safety
///
/// As the header says of the pointers.
unsafe fn open(
    address: *const c_char,
    handle: *mut *mut Opaque,
    message: (*mut c_char, usize),
    opened: impl FnOnce(&Path) -> Result<Store, Error>,
) -> c_int {
    let call = || {
        let room = Room::one(handle, "store")?;
        // SAFETY: by the contract. A caller that does not look at the status has no handle either.
        unsafe { room.put(std::ptr::null_mut()) };
        // SAFETY: by the contract.
        let store = opened(unsafe { path(address, "address") }?)?;
        // SAFETY: by the contract.
        unsafe { room.put(handles::add(store)?) };
        Ok(())
    };
    // SAFETY: by the contract.
    unsafe { without(message, call) }
}

/// Opens a log.
#[unsafe(no_mangle)]
pub unsafe extern "C" fn cindrolf_store_open(
    address: *const c_char,
    store: *mut *mut Opaque,
    message: *mut c_char,
    message_size: usize,
) -> c_int {
    // SAFETY: by the header.
    unsafe { open(address, store, (message, message_size), |path| Store::open(path)) }
}

/// Opens a log to read only.
#[unsafe(no_mangle)]
pub unsafe extern "C" fn cindrolf_store_open_read_only(
    address: *const c_char,
    store: *mut *mut Opaque,
    message: *mut c_char,
    message_size: usize,
) -> c_int {
    // SAFETY: by the header.
    unsafe { open(address, store, (message, message_size), |path| Store::open_read_only(path)) }
}

/// Makes a fresh log.
#[unsafe(no_mangle)]
pub unsafe extern "C" fn cindrolf_store_create(
    address: *const c_char,
    client_count: u64,
    entry_words: usize,
    store: *mut *mut Opaque,
    message: *mut c_char,
    message_size: usize,
) -> c_int {
    let create = |path: &Path| {
        let capacity = [Capacity::Large, Capacity::Small].into_iter().find(|capacity| capacity.words() == entry_words);
        Store::create(path, client_count, capacity.ok_or(Refusal::WrongLength)?)
    };
    // SAFETY: by the header.
    unsafe { open(address, store, (message, message_size), create) }
}

/// Closes a log.
#[unsafe(no_mangle)]
pub unsafe extern "C" fn cindrolf_store_close(store: *mut Opaque, message: *mut c_char, message_size: usize) -> c_int {
    // SAFETY: by the header.
    unsafe { without((message, message_size), || handles::close(store)) }
}

/// Why the last call was not done.
#[unsafe(no_mangle)]
pub unsafe extern "C" fn cindrolf_store_message(store: *mut Opaque, text: *mut c_char, text_size: usize) -> c_int {
    let mut message = String::new();
    let looked = handles::look(store, |kept, _| {
        message.push_str(kept);
        Ok(())
    });
    // A handle that is none, or is in use, tells that.
    let message = looked.as_ref().err().map_or(message, |failure: &Failure| failure.message.clone());
    // SAFETY: by the header.
    unsafe { write_text(&message, text, text_size) };
    looked.map_or_else(|failure| failure.status, |()| crate::Status::Ok).number()
}

/// The request of the last call, where it is not known whether that is stored.
#[unsafe(no_mangle)]
pub unsafe extern "C" fn cindrolf_store_unknown_request(store: *mut Opaque, request: *mut u64) -> c_int {
    let looked = handles::look(store, |_, kept| {
        let room = Room::one(request, "request")?;
        // SAFETY: by the header.
        unsafe { room.put(kept) };
        Ok(())
    });
    looked.map_or_else(|failure| failure.status, |()| crate::Status::Ok).number()
}
