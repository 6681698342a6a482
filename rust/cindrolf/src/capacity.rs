//! How many entries a log takes.

use crate::{ENTRY_WORDS, SMALL_ENTRY_WORDS};

/// How many entries a log takes: as many as its entry buffer has words.
///
/// ```
/// use cindrolf::{Capacity, Log};
///
/// let log = Log::fresh_with(2, Capacity::Small)?;
/// assert_eq!(log.entries().len(), 512);
/// assert_eq!(log.capacity(), Capacity::Small);
/// assert_eq!(Log::fresh(2)?.capacity(), Capacity::Large);
/// # Ok::<(), cindrolf::Error>(())
/// ```
#[derive(Clone, Copy, Debug, PartialEq, Eq, Hash, PartialOrd, Ord)]
pub enum Capacity {
    /// 512 entries, as a small cartridge has them.
    Small = SMALL_ENTRY_WORDS as isize,
    /// 4,096 entries.
    Large = ENTRY_WORDS as isize,
}

impl Capacity {
    /// The words of the entry buffer.
    pub const fn words(self) -> usize {
        self as usize
    }

    /// The capacity of an entry buffer of so many words; none where no log has such a buffer.
    ///
    /// ```
    /// use cindrolf::Capacity;
    /// assert_eq!(Capacity::from_words(512), Some(Capacity::Small));
    /// assert_eq!(Capacity::from_words(513), None);
    /// ```
    pub const fn from_words(words: usize) -> Option<Capacity> {
        match words {
            SMALL_ENTRY_WORDS => Some(Capacity::Small),
            ENTRY_WORDS => Some(Capacity::Large),
            _ => None,
        }
    }
}
