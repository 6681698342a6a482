//! The names of marks.

use crate::Error;
use std::str::FromStr;

/// The name of a mark: eight bytes, not all zero. A name that is all zero is refused by every call.
///
/// A shorter text is padded with zero bytes.
///
/// ```
/// use cindrolf::{Error, MarkName};
///
/// let name: MarkName = "wash".parse()?;
/// assert_eq!(name, MarkName(*b"wash\0\0\0\0"));
/// assert_eq!("before the wash".parse::<MarkName>(), Err(Error::NoMarkName));
/// # Ok::<(), Error>(())
/// ```
#[derive(Clone, Copy, Debug, PartialEq, Eq, Hash, PartialOrd, Ord)]
pub struct MarkName(pub [u8; 8]);

impl MarkName {
    /// The name's word in a marks buffer: its first byte is the most significant.
    pub const fn word(self) -> u64 {
        u64::from_be_bytes(self.0)
    }

    /// The name in a word of a marks buffer.
    pub const fn from_word(word: u64) -> Self {
        MarkName(word.to_be_bytes())
    }
}

impl From<[u8; 8]> for MarkName {
    fn from(bytes: [u8; 8]) -> Self {
        MarkName(bytes)
    }
}

/// From a text of 1 to 8 bytes. None may be zero, so that two texts never give the same name.
impl FromStr for MarkName {
    type Err = Error;

    fn from_str(text: &str) -> Result<Self, Error> {
        let mut bytes = [0; 8];
        let name = bytes.get_mut(..text.len()).ok_or(Error::NoMarkName)?;
        if text.is_empty() || text.contains('\0') {
            return Err(Error::NoMarkName);
        }
        name.copy_from_slice(text.as_bytes());
        Ok(MarkName(bytes))
    }
}

#[cfg(test)]
mod tests {
    use super::*;

    #[test]
    fn texts() {
        assert_eq!("a".parse(), Ok(MarkName([97, 0, 0, 0, 0, 0, 0, 0])));
        assert_eq!("pre-wash".parse(), Ok(MarkName(*b"pre-wash")));
        assert_eq!("größe".parse(), Ok(MarkName([103, 114, 0xC3, 0xB6, 0xC3, 0x9F, 101, 0])));
        for text in ["", "pre-wash2", "größeren", "\0", "a\0", "\0\0\0\0\0\0\0\0"] {
            assert_eq!(text.parse::<MarkName>(), Err(Error::NoMarkName), "{text:?}");
        }
    }

    #[test]
    fn words() {
        assert_eq!(MarkName(*b"pre-wash").word(), 0x7072_652D_7761_7368);
        assert_eq!(MarkName::from([0, 0, 0, 0, 0, 0, 1, 2]).word(), 258);
        assert_eq!(MarkName::from_word(0xFF00_0000_0000_0001), MarkName([0xFF, 0, 0, 0, 0, 0, 0, 1]));
    }
}
