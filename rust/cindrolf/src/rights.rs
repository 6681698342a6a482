//! The rights of the clients, which a caller passes with a step.

use crate::{CLIENT_LIMIT, Error, Kind, RIGHTS_WORDS, Refusal};

/// The right of a client to a kind of step: it is named by the kind.
pub type Right = Kind;

impl Kind {
    /// The bit of the right to it in a client's word: the first is the most significant.
    ///
    /// ```
    /// use cindrolf::Right;
    /// assert_eq!(Right::Name.bit(), 1 << 63);
    /// assert_eq!(Right::CloseOwn.bit(), 1 << 54);
    /// ```
    pub const fn bit(self) -> u64 {
        1 << (63 - self.number())
    }
}

/// All ten rights, as a client's word.
const TEN: u64 = 0xFFC0_0000_0000_0000;

/// Which client may take which step: a word for each client, which a step reads and never changes.
///
/// A step under rights is refused if its client lacks the right to it. The log does not keep rights: the caller does,
/// and passes them with each step.
///
/// A guest instrument that leads may go on, and is not named again:
///
/// ```
/// use cindrolf::{Error, Log, Refusal, Right, Rights};
///
/// let (host, guest) = (0, 1);
/// let mut rights = Rights::all(2)?;
/// let mut log = Log::fresh(2)?;
/// log.under(&rights).name(guest)?;
/// log.under(&rights).become_leader(guest)?;
/// log.under(&rights).fetch(guest)?;
/// log.under(&rights).create(guest)?;
/// let _ = log.under(&rights).append(guest)?;
///
/// rights.revoke(guest, Right::Name);
/// log.under(&rights).write(guest, 7)?;
/// log.under(&rights).name(host)?;
/// log.under(&rights).write(guest, 8)?;
/// assert_eq!(log.under(&rights).name(guest), Err(Error::Refused(Refusal::MissingRight)));
/// # Ok::<(), Error>(())
/// ```
#[derive(Clone, Copy, Debug, PartialEq, Eq, Hash)]
pub struct Rights([u64; RIGHTS_WORDS]);

impl Rights {
    /// No client has any right.
    pub const fn none() -> Self {
        Rights([0; RIGHTS_WORDS])
    }

    /// Each client of a log of 1 to 16 clients has all ten rights. A step takes the same under them as without any.
    ///
    /// ```
    /// use cindrolf::{Error, Refusal, Rights};
    ///
    /// let rights = Rights::all(3)?;
    /// assert_eq!(rights.words()[..4], [0xFFC0_0000_0000_0000, 0xFFC0_0000_0000_0000, 0xFFC0_0000_0000_0000, 0]);
    /// assert_eq!(Rights::all(17), Err(Error::Refused(Refusal::ClientCount)));
    /// # Ok::<(), Error>(())
    /// ```
    pub fn all(client_count: u64) -> Result<Self, Error> {
        if client_count == 0 || client_count > CLIENT_LIMIT {
            return Err(Refusal::ClientCount.into());
        }
        let mut rights = Self::none();
        rights.0[..client_count as usize].fill(TEN);
        Ok(rights)
    }

    /// The rights in these words, which may be any. A step refuses those that aren't well formed for its log.
    ///
    /// ```
    /// use cindrolf::{Error, Log, Refusal, Rights};
    ///
    /// let mut log = Log::fresh(2)?;
    /// let kept = Rights::all(2)?.words().to_vec();
    /// let rights = Rights::from_words(kept.try_into().expect("16 words"));
    /// assert_eq!(log.under(&rights).name(1), Ok(()));
    /// // This log has no client 2, so it cannot be given a right.
    /// let stray = Rights::all(3)?;
    /// assert_eq!(log.under(&stray).name(0), Err(Error::Refused(Refusal::NotWellFormed)));
    /// # Ok::<(), Error>(())
    /// ```
    pub const fn from_words(words: [u64; RIGHTS_WORDS]) -> Self {
        Rights(words)
    }

    /// The words, client by client, to keep or to pass to [`calls`](crate::calls).
    pub const fn words(&self) -> &[u64; RIGHTS_WORDS] {
        &self.0
    }

    /// Gives a client a right. A client of number 16 or above has no word, and is refused as unknown.
    ///
    /// ```
    /// use cindrolf::{Error, Refusal, Right, Rights};
    ///
    /// let mut rights = Rights::none();
    /// rights.grant(1, Right::Write)?;
    /// assert!(rights.has(1, Right::Write));
    /// assert!(!rights.has(1, Right::CloseOwn) && !rights.has(0, Right::Write));
    /// assert_eq!(rights.grant(16, Right::Write), Err(Error::Refused(Refusal::UnknownClient)));
    /// # Ok::<(), Error>(())
    /// ```
    pub fn grant(&mut self, client: u64, right: Right) -> Result<(), Error> {
        let word = self.word(client).ok_or(Refusal::UnknownClient)?;
        *word |= right.bit();
        Ok(())
    }

    /// Takes a right from a client, if it has it.
    ///
    /// ```
    /// use cindrolf::{Right, Rights};
    ///
    /// let mut rights = Rights::all(2)?;
    /// rights.revoke(1, Right::Name);
    /// assert!(!rights.has(1, Right::Name));
    /// assert!(rights.has(1, Right::Become) && rights.has(0, Right::Name));
    /// # Ok::<(), cindrolf::Error>(())
    /// ```
    pub fn revoke(&mut self, client: u64, right: Right) {
        if let Some(word) = self.word(client) {
            *word &= !right.bit();
        }
    }

    /// Whether a client has a right.
    pub fn has(&self, client: u64, right: Right) -> bool {
        let word = usize::try_from(client).ok().and_then(|client| self.0.get(client));
        word.is_some_and(|word| word & right.bit() != 0)
    }

    fn word(&mut self, client: u64) -> Option<&mut u64> {
        usize::try_from(client).ok().and_then(|client| self.0.get_mut(client))
    }
}

#[cfg(test)]
mod tests {
    use super::*;

    // N B A F L K C P W O, from the most significant bit.
    #[test]
    fn bits() {
        let bits = Right::ALL.map(|right| right.bit().trailing_zeros());
        assert_eq!(bits, [63, 62, 61, 60, 59, 58, 57, 56, 55, 54]);
        assert_eq!(Right::ALL.iter().fold(0, |word, right| word | right.bit()), TEN);
    }

    #[test]
    fn by_client_and_right() {
        let mut rights = Rights::none();
        for client in 0..16 {
            for right in Right::ALL {
                assert!(!rights.has(client, right));
                assert_eq!(rights.grant(client, right), Ok(()));
                assert!(rights.has(client, right));
            }
            assert_eq!(Rights::all(client + 1), Ok(rights));
        }
        for client in [16, 17, 1 << 32, u64::MAX] {
            assert_eq!(rights.grant(client, Right::Name), Err(Error::Refused(Refusal::UnknownClient)));
            rights.revoke(client, Right::Name);
            assert!(!rights.has(client, Right::Name));
        }
        assert_eq!(rights.words(), &[TEN; 16]);
        rights.revoke(3, Right::Finish);
        rights.revoke(3, Right::Finish);
        assert_eq!(rights.words()[2..5], [TEN, 0xFBC0_0000_0000_0000, TEN]);
        assert_eq!(Rights::from_words(*rights.words()), rights);
        for count in [0, 17, u64::MAX] {
            assert_eq!(Rights::all(count), Err(Error::Refused(Refusal::ClientCount)));
        }
    }
}
