//! Words rearranged into bytes for storage, and restored. They need not be a log.
//!
//! The unsafe blocks are sound for the same reason as those of [`calls`](crate::calls): the library reads and writes
//! only what we pass by pointer and length, and accepts every content and length.

use crate::{Error, answer, raw};

/// Writes the words to eight times as many bytes: the first word and then the difference of each word from the word before it, wrapping at
/// 2^64; of these all most significant bytes first, all next bytes after them, and so on. The words stay.
///
/// More than [`REARRANGE_LIMIT`](crate::REARRANGE_LIMIT) words, or another number of bytes, is refused, and changes nothing.
///
/// ```
/// use cindrolf::{Error, Refusal, rearrange};
///
/// let mut bytes = [0; 24];
/// rearrange(&[5, 261, 260], &mut bytes)?;
/// assert_eq!(bytes[..3], [0, 0, 255]);
/// assert_eq!(bytes[18..], [0, 1, 255, 5, 0, 255]);
/// assert_eq!(rearrange(&[5, 261], &mut bytes), Err(Error::Refused(Refusal::StorageLength)));
/// # Ok::<(), Error>(())
/// ```
pub fn rearrange(words: &[u64], bytes: &mut [u8]) -> Result<(), Error> {
    // SAFETY: the bytes alone are changed, and they are exclusive.
    let number = unsafe { raw::cindrolf_rearrange(words.as_ptr(), words.len(), bytes.as_mut_ptr(), bytes.len()) };
    answer::done(number)
}

/// Gives back the words that [`rearrange`] wrote to these bytes, an eighth as many. Any bytes are those of some words.
///
/// It refuses the same lengths, and a refusal changes nothing.
pub fn restore(bytes: &[u8], words: &mut [u64]) -> Result<(), Error> {
    // SAFETY: the words alone are changed, and they are exclusive.
    let number = unsafe { raw::cindrolf_restore(bytes.as_ptr(), bytes.len(), words.as_mut_ptr(), words.len()) };
    answer::done(number)
}
