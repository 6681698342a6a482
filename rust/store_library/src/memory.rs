//! Memory of the caller: checks what can be checked of a pointer before anything is read or written there.

use crate::failure::Failure;
use std::ffi::{CStr, OsStr, c_char};
use std::os::unix::ffi::OsStrExt;
use std::path::Path;

/// The memory that a pointer and a length name, to read. A null pointer with length 0 is an empty one.
///
/// # Safety
///
/// A pointer that is not null is valid for as many values, and nobody writes them meanwhile.
pub unsafe fn slice<'a, T>(pointer: *const T, length: usize, what: &str) -> Result<&'a [T], Failure> {
    fits(pointer, length, what)?;
    if length == 0 {
        return Ok(&[]);
    }
    // SAFETY: it is not null, aligned and not too long; the rest is the contract.
    Ok(unsafe { std::slice::from_raw_parts(pointer, length) })
}

/// The same to be written to: it need not hold anything yet.
pub struct Room<T>(*mut T, usize);

impl<T: Copy> Room<T> {
    /// Room for as many values as the length says.
    pub fn new(pointer: *mut T, length: usize, what: &str) -> Result<Room<T>, Failure> {
        fits(pointer, length, what).map(|()| Room(pointer, length))
    }

    /// Room for a single value, or for none where the pointer is null.
    pub fn optional(pointer: *mut T, what: &str) -> Result<Room<T>, Failure> {
        Room::new(pointer, usize::from(!pointer.is_null()), what)
    }

    /// Room for a single value.
    pub fn one(pointer: *mut T, what: &str) -> Result<Room<T>, Failure> {
        Room::new(pointer, 1, what)
    }

    /// How many values there is room for.
    pub fn length(&self) -> usize {
        self.1
    }

    /// Writes as many of the values as there is room for.
    ///
    /// # Safety
    ///
    /// The room is the caller's to write to.
    pub unsafe fn fill(&self, values: &[T]) {
        let length = values.len().min(self.1);
        if length > 0 {
            // SAFETY: the pointer is not null, and valid for as many values by the contract.
            unsafe { std::ptr::copy_nonoverlapping(values.as_ptr(), self.0, length) };
        }
    }

    /// Writes a single value, if there is room for any.
    ///
    /// # Safety
    ///
    /// As for [`fill`](Room::fill).
    pub unsafe fn put(&self, value: T) {
        // SAFETY: as there.
        unsafe { self.fill(&[value]) };
    }
}

fn fits<T>(pointer: *const T, length: usize, what: &str) -> Result<(), Failure> {
    if pointer.is_null() && length > 0 {
        return Err(Failure::argument(format!("{what} is null, and its length is {length}")));
    }
    if !pointer.is_aligned() {
        return Err(Failure::argument(format!("{what} is not aligned")));
    }
    if length > isize::MAX as usize / size_of::<T>() {
        return Err(Failure::argument(format!("{what} has a length that no memory has")));
    }
    Ok(())
}

/// Bytes up to a zero.
///
/// # Safety
///
/// A pointer that is not null leads to a byte 0, and nobody writes the bytes meanwhile.
pub unsafe fn bytes<'a>(pointer: *const c_char, what: &str) -> Result<&'a [u8], Failure> {
    if pointer.is_null() {
        return Err(Failure::argument(format!("{what} is null")));
    }
    // SAFETY: it is not null; the rest is the contract.
    Ok(unsafe { CStr::from_ptr(pointer) }.to_bytes())
}

/// A text up to a zero.
///
/// # Safety
///
/// As for [`bytes`].
pub unsafe fn text<'a>(pointer: *const c_char, what: &str) -> Result<&'a str, Failure> {
    // SAFETY: by the contract.
    let bytes = unsafe { bytes(pointer, what) }?;
    std::str::from_utf8(bytes).map_err(|_| Failure::argument(format!("{what} is no UTF-8")))
}

/// A file's name or an address, which is any bytes.
///
/// # Safety
///
/// As for [`bytes`].
pub unsafe fn path<'a>(pointer: *const c_char, what: &str) -> Result<&'a Path, Failure> {
    // SAFETY: by the contract.
    unsafe { bytes(pointer, what) }.map(|bytes| Path::new(OsStr::from_bytes(bytes)))
}

/// Writes a text with a zero after it, cut where there is no room for all of it. Null or length 0 wants none.
///
/// # Safety
///
/// A pointer that is not null is valid for as many bytes.
pub unsafe fn write_text(text: &str, pointer: *mut c_char, length: usize) {
    if pointer.is_null() || length == 0 {
        return;
    }
    let room = text.len().min(length - 1);
    let cut = (0..=room).rev().find(|&at| text.is_char_boundary(at)).unwrap_or(0);
    // A zero within would end it.
    let bytes: Vec<u8> = text[..cut].bytes().map(|byte| if byte == 0 { b'?' } else { byte }).chain([0]).collect();
    // SAFETY: there are at most as many bytes as the length says.
    unsafe { std::ptr::copy_nonoverlapping(bytes.as_ptr(), pointer.cast(), bytes.len()) };
}

#[cfg(test)]
mod tests {
    use super::*;

    #[test]
    fn texts_are_cut_between_letters() {
        let written = |text: &str, length: usize| {
            let mut room = [1u8; 12];
            // SAFETY: the room has at least so many bytes.
            unsafe { write_text(text, room.as_mut_ptr().cast(), length) };
            room
        };
        assert_eq!(written("größe", 12)[..9], *b"gr\xC3\xB6\xC3\x9Fe\0\x01");
        assert_eq!(written("größe", 4)[..4], *b"gr\0\x01");
        assert_eq!(written("größe", 5)[..6], *b"gr\xC3\xB6\0\x01");
        assert_eq!(written("a\0b", 12)[..5], *b"a?b\0\x01");
        assert_eq!(written("größe", 1)[..2], [0, 1]);
        assert_eq!(written("größe", 0), [1; 12]);
    }

    #[test]
    fn what_can_be_told_of_a_pointer() {
        let word = 7u64;
        let odd = std::ptr::from_ref(&word).wrapping_byte_add(1);
        // SAFETY: nothing is read where the pointer is refused.
        unsafe {
            assert!(slice::<u64>(std::ptr::null(), 0, "x").is_ok_and(<[u64]>::is_empty));
            assert!(slice::<u64>(std::ptr::null(), 1, "x").is_err());
            assert!(slice(odd, 1, "x").is_err());
            assert!(slice(&word, usize::MAX, "x").is_err());
            assert_eq!(slice(&word, 1, "x").unwrap(), [7]);
            assert!(bytes(std::ptr::null(), "x").is_err() && text(c"\xFF".as_ptr(), "x").is_err());
        }
    }
}
