//! The log as it is now, what has changed, and whether it is consistent.

use crate::failure::Failure;
use crate::handles::{Opaque, with};
use crate::memory::{Room, path, text, write_text};
use crate::settings::wait;
use limits::{MARK_WORDS, RIGHTS_WORDS, STATE_WORDS};
use std::ffi::{c_char, c_int};
use std::time::Instant;
use store::LastRow;

/// What a snapshot is of, as the header has it.
#[repr(C)]
#[derive(Clone, Copy)]
pub struct Taken {
    rows: u64,
    clients: u64,
    entry_words: u64,
}

/// Room for words that are all wanted, or none of them.
fn buffer(pointer: *mut u64, length: usize, words: usize, what: &str) -> Result<Room<u64>, Failure> {
    let room = Room::new(pointer, length, what)?;
    match length {
        0 => Ok(room),
        _ if length == words => Ok(room),
        _ => Err(Failure::argument(format!("{what} has {length} words, and {words} are needed"))),
    }
}

/// Copies the log as it is now.
#[unsafe(no_mangle)]
#[allow(clippy::too_many_arguments)]
pub unsafe extern "C" fn cindrolf_store_snapshot(
    store: *mut Opaque,
    state: *mut u64,
    state_length: usize,
    entries: *mut u64,
    entries_length: usize,
    marks: *mut u64,
    marks_length: usize,
    rights: *mut u64,
    rights_length: usize,
    taken: *mut Taken,
) -> c_int {
    with(store, |store| {
        let state = buffer(state, state_length, STATE_WORDS, "state")?;
        let entries = Room::new(entries, entries_length, "entries")?;
        let marks = buffer(marks, marks_length, MARK_WORDS, "marks")?;
        let rights = buffer(rights, rights_length, RIGHTS_WORDS, "rights")?;
        let taken = Room::optional(taken, "taken")?;
        let latest = store.latest()?;
        let (log, clients) = (latest.log(), latest.view()?.client_count());
        let words = log.entries().len();
        if (1..words).contains(&entries.length()) {
            return Err(Failure::argument(format!("entries has {} words, and the log {words}", entries.length())));
        }
        // SAFETY: by the header.
        unsafe {
            state.fill(log.state());
            entries.fill(log.entries());
            marks.fill(latest.marks());
            rights.fill(latest.rights().words());
            taken.put(Taken { rows: latest.rows() as u64, clients, entry_words: words as u64 });
        }
        Ok(())
    })
}

/// Waits for rows of others.
#[unsafe(no_mangle)]
pub unsafe extern "C" fn cindrolf_store_changed(store: *mut Opaque, milliseconds: u64, changed: *mut u64) -> c_int {
    with(store, |store| {
        let room = Room::one(changed, "changed")?;
        let has_changed = store.changed(Instant::now() + wait(milliseconds)?)?;
        // SAFETY: by the header.
        unsafe { room.put(has_changed.into()) };
        Ok(())
    })
}

/// What became of a request.
#[unsafe(no_mangle)]
pub unsafe extern "C" fn cindrolf_store_settle(
    store: *mut Opaque,
    request: u64,
    found: *mut u64,
    rows_before: *mut u64,
) -> c_int {
    with(store, |store| {
        let (found, rows) = (Room::one(found, "found")?, Room::optional(rows_before, "rows_before")?);
        let place = store.settle(request)?;
        // SAFETY: by the header.
        unsafe {
            found.put(place.is_some().into());
            rows.put(place.unwrap_or(0) as u64);
        }
        Ok(())
    })
}

/// The last row that the handle knows, as a text.
#[unsafe(no_mangle)]
pub unsafe extern "C" fn cindrolf_store_last_row(store: *mut Opaque, row: *mut c_char, row_size: usize) -> c_int {
    with(store, |store| {
        let row_text = match store.last_row() {
            Some(known) => known,
            // After an error the store has thrown away what it knew.
            None => store.latest()?.last_row(),
        }
        .to_string();
        let room = Room::new(row, row_size, "row")?;
        if room.length() <= row_text.len() {
            return Err(Failure::argument(format!("{row_size} bytes have no room for the row {row_text}")));
        }
        // SAFETY: by the header.
        unsafe { write_text(&row_text, row, row_size) };
        Ok(())
    })
}

/// Sees that the log still has a row.
#[unsafe(no_mangle)]
pub unsafe extern "C" fn cindrolf_store_has_row(store: *mut Opaque, row: *const c_char) -> c_int {
    with(store, |store| {
        // SAFETY: by the header.
        let row: LastRow =
            unsafe { text(row, "row") }?.parse().map_err(|error| Failure::argument(format!("{error}")))?;
        Ok(store.has_row(row)?)
    })
}

/// Sees that the whole log holds together.
#[unsafe(no_mangle)]
pub unsafe extern "C" fn cindrolf_store_check(store: *mut Opaque, rows: *mut u64, wrong: *mut u64) -> c_int {
    with(store, |store| {
        let (rows, wrong) = (Room::optional(rows, "rows")?, Room::optional(wrong, "wrong")?);
        let checked = store.check()?;
        // SAFETY: by the header.
        unsafe {
            rows.put(checked.rows as u64);
            wrong.put(checked.wrong.len() as u64);
        }
        Ok(())
    })
}

/// Copies what is stored to the file.
#[unsafe(no_mangle)]
pub unsafe extern "C" fn cindrolf_store_checkpoint(store: *mut Opaque, whole: *mut u64) -> c_int {
    with(store, |store| {
        let room = Room::optional(whole, "whole")?;
        let whole = store.checkpoint()?;
        // SAFETY: by the header.
        unsafe { room.put(whole.into()) };
        Ok(())
    })
}

/// Copies the log as it is now to a new one.
#[unsafe(no_mangle)]
pub unsafe extern "C" fn cindrolf_store_copy(store: *mut Opaque, address: *const c_char) -> c_int {
    // SAFETY: by the header.
    with(store, |store| Ok(store.copy_to(unsafe { path(address, "address") }?)?))
}
