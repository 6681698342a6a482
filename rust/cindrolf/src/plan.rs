//! Steps as words, the plans made of them, and what a run adds.

use crate::{CLIENT_NUMBER_LIMIT, Error, Kind, Refusal, Step, VALUE_LIMIT, value_of};

/// A step by a client, as a word of a plan: the number of its [`Kind`] in the 4 most significant bits, the client in the 8 below,
/// and a value in 52, which counts only for a write.
///
/// ```
/// use cindrolf::{Error, Refusal, Step, StepWord};
///
/// let write = StepWord::new(3, Step::write(9))?;
/// assert_eq!(write, StepWord(0x8030_0000_0000_0009));
/// assert_eq!((write.client(), write.step()), (3, Some(Step::write(9))));
/// assert_eq!(StepWord::new(3, Step::write(1 << 52)), Err(Error::Refused(Refusal::ValueTooWide)));
/// // A run has refusal 25 for this one.
/// assert_eq!(StepWord(0xA000_0000_0000_0000).step(), None);
/// # Ok::<(), Error>(())
/// ```
#[derive(Clone, Copy, Debug, PartialEq, Eq, Hash)]
#[repr(transparent)]
pub struct StepWord(pub u64);

impl StepWord {
    /// The word of a step by a client. A client above 255 is refused as unknown, and a value of 2^52 or more as too wide:
    /// the word has no room for them.
    pub const fn new(client: u64, step: Step) -> Result<Self, Error> {
        if client > CLIENT_NUMBER_LIMIT {
            return Err(Error::Refused(Refusal::UnknownClient));
        }
        if step.value() > VALUE_LIMIT {
            return Err(Error::Refused(Refusal::ValueTooWide));
        }
        Ok(StepWord(step.kind().number() << 60 | client << 52 | step.value()))
    }

    /// The step. A word whose number is 10 or above names none.
    pub const fn step(self) -> Option<Step> {
        match Kind::from_number(self.0 >> 60) {
            Some(kind) => Some(Step::new(kind, value_of(self.0))),
            None => None,
        }
    }

    /// The client, 0 to 255.
    pub const fn client(self) -> u64 {
        (self.0 >> 52) & CLIENT_NUMBER_LIMIT
    }

    /// A plan's words, to keep, to send or to pass to [`calls`](crate::calls).
    ///
    /// ```
    /// use cindrolf::{Error, Step, StepWord};
    ///
    /// let plan = [StepWord::new(1, Step::NAME)?, StepWord::new(1, Step::BECOME)?];
    /// let words = StepWord::words(&plan);
    /// assert_eq!(words, [0x0010_0000_0000_0000, 0x1010_0000_0000_0000]);
    /// assert_eq!(StepWord::from_words(words), plan);
    /// # Ok::<(), Error>(())
    /// ```
    pub const fn words(plan: &[StepWord]) -> &[u64] {
        // SAFETY: a step word is transparent, so both slices have the same layout, and every word is one of either.
        unsafe { std::slice::from_raw_parts(plan.as_ptr().cast(), plan.len()) }
    }

    /// The plan in these words, which may be any.
    pub const fn from_words(words: &[u64]) -> &[StepWord] {
        // SAFETY: as above.
        unsafe { std::slice::from_raw_parts(words.as_ptr().cast(), words.len()) }
    }
}

/// What a run of a plan adds.
#[derive(Clone, Copy, Debug, Default, PartialEq, Eq, Hash)]
pub struct Forecast {
    /// How many entries.
    pub entries: u64,
    /// How many ledger numbers: creates that are done.
    pub ledgers: u64,
    /// How many of its steps are refused. Was closed and `behind` are no refusals.
    pub refusals: u64,
}

#[cfg(test)]
mod tests {
    use super::*;

    // N B A F L K C P W O, from 0.
    #[test]
    fn words_of_steps() {
        for (number, kind) in (0..).zip(Kind::ALL) {
            let step = Step::new(kind, 0);
            assert_eq!(StepWord::new(0, step), Ok(StepWord(number * 0x1000_0000_0000_0000)));
            let word = StepWord(number * 0x1000_0000_0000_0000 + 0x0FF0_0000_0000_0000);
            assert_eq!(StepWord::new(255, step), Ok(word));
            assert_eq!((word.client(), word.step()), (255, Some(step)));
        }
        for number in 10..16 {
            assert_eq!(StepWord(number << 60).step(), None);
        }
        let widest = StepWord::new(15, Step::write(0xF_FFFF_FFFF_FFFF));
        assert_eq!(widest, Ok(StepWord(0x80FF_FFFF_FFFF_FFFF)));
        // The value of another step plays no part.
        assert_eq!(StepWord(0x301F_FFFF_FFFF_FFFF).step(), Some(Step::FETCH));
    }

    #[test]
    fn no_room() {
        for client in [256, 1 << 32, u64::MAX] {
            assert_eq!(StepWord::new(client, Step::write(u64::MAX)), Err(Error::Refused(Refusal::UnknownClient)));
        }
        for value in [1 << 52, u64::MAX] {
            assert_eq!(StepWord::new(255, Step::write(value)), Err(Error::Refused(Refusal::ValueTooWide)));
        }
    }
}
