//! The bytes of an archive: sections of words in rearranged blocks and sections of bytes, and a digest over all of them.
//!
//! Words of one kind are similar: the ids of requests rise, times rise, and steps repeat. The library's rearranging
//! makes differences of them and puts the same bytes of all words together, which compress well. Texts and scores are
//! left unchanged: of 614,400 scores zstd made 239 kB, of the same rearranged, one to a word, 315 kB, and four to a
//! word 483 kB.

use crate::Error;
use limits::REARRANGE_LIMIT;

/// How an archive begins, and its version.
const NAME: &[u8; 16] = b"cindrolf archive";
const VERSION: u64 = 1;

/// How many bytes the digest has, with which an archive ends.
const DIGEST: usize = 32;

/// How many bytes a word has.
const WORD: usize = 8;

/// An archive that is being written.
pub(super) struct Writer(Vec<u8>);

impl Writer {
    pub fn new() -> Self {
        Writer([&NAME[..], &VERSION.to_le_bytes()].concat())
    }

    /// How many words there are, and the words, in blocks that the library rearranges.
    pub fn words(&mut self, words: &[u64]) -> Result<(), Error> {
        self.0.extend((words.len() as u64).to_le_bytes());
        for block in words.chunks(REARRANGE_LIMIT) {
            let start = self.0.len();
            self.0.resize(start + WORD * block.len(), 0);
            cindrolf::rearrange(block, &mut self.0[start..])?;
        }
        Ok(())
    }

    /// How many bytes there are, and the bytes.
    pub fn bytes(&mut self, bytes: &[u8]) {
        self.0.extend((bytes.len() as u64).to_le_bytes());
        self.0.extend(bytes);
    }

    pub fn finish(mut self) -> Vec<u8> {
        let digest = digest::sha256(&self.0);
        self.0.extend(digest);
        self.0
    }
}

/// What is left to read of an archive.
pub(super) struct Reader<'a>(&'a [u8]);

impl<'a> Reader<'a> {
    /// The sections of an archive in which no byte was changed.
    pub fn new(archive: &'a [u8]) -> Result<Self, String> {
        if !archive.starts_with(NAME) {
            return Err("it does not begin as an archive does".into());
        }
        let (bytes, digest) = archive.split_last_chunk::<DIGEST>().ok_or("it was cut")?;
        if digest::sha256(bytes) != *digest {
            return Err("a byte of it was changed, or it was cut".into());
        }
        let mut reader = Reader(&bytes[NAME.len()..]);
        match reader.number() {
            Some(VERSION) => Ok(reader),
            Some(version) => Err(format!("it is of version {version}, and this program reads version {VERSION}")),
            None => Err("it was cut".into()),
        }
    }

    fn number(&mut self) -> Option<u64> {
        let (number, rest) = self.0.split_first_chunk()?;
        self.0 = rest;
        Some(u64::from_le_bytes(*number))
    }

    pub fn words(&mut self) -> Option<Vec<u64>> {
        let count = usize::try_from(self.number()?).ok()?;
        let (taken, rest) = self.0.split_at_checked(count.checked_mul(WORD)?)?;
        self.0 = rest;
        let mut words = vec![0; count];
        for (block, words) in taken.chunks(WORD * REARRANGE_LIMIT).zip(words.chunks_mut(REARRANGE_LIMIT)) {
            cindrolf::restore(block, words).ok()?;
        }
        Some(words)
    }

    pub fn bytes(&mut self) -> Option<&'a [u8]> {
        let count = usize::try_from(self.number()?).ok()?;
        let (taken, rest) = self.0.split_at_checked(count)?;
        self.0 = rest;
        Some(taken)
    }

    /// Whether everything was read.
    pub fn is_at_end(&self) -> bool {
        self.0.is_empty()
    }
}
