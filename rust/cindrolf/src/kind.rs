//! The ten kinds of step: one table of their numbers, letters and names.

use std::fmt;

macro_rules! kinds {
    ($($(#[$doc:meta])* $kind:ident, $letter:literal, $name:literal;)*) => {
        /// A kind of step. The right to it, and the advice to take it, are named by it: see [`Right`](crate::Right) and
        /// [`Advice`](crate::Advice).
        ///
        /// ```
        /// use cindrolf::Kind;
        ///
        /// assert_eq!(Kind::from_letter('L'), Some(Kind::CloseLast));
        /// assert_eq!((Kind::CloseLast.number(), Kind::CloseLast.name()), (4, "close last"));
        /// ```
        #[derive(Clone, Copy, Debug, PartialEq, Eq, Hash, PartialOrd, Ord)]
        pub enum Kind {
            $($(#[$doc])* $kind,)*
        }

        impl Kind {
            /// The ten kinds, in the order of their numbers and of the bits of rights.
            pub const ALL: [Kind; 10] = [$(Kind::$kind),*];

            /// Its letter in a line of a session.
            pub const fn letter(self) -> char {
                match self {
                    $(Kind::$kind => $letter,)*
                }
            }

            /// Its name, as the sentences of refusals have it.
            pub const fn name(self) -> &'static str {
                match self {
                    $(Kind::$kind => $name,)*
                }
            }
        }
    };
}

kinds! {
    /// The client becomes the named leader.
    Name, 'N', "name";
    /// The client, which is named, starts to lead.
    Become, 'B', "become";
    /// The client, which is no longer named, stops leading.
    Abdicate, 'A', "abdicate";
    /// The client fetches the list and its last ledger.
    Fetch, 'F', "fetch";
    /// The client fences the last ledger.
    CloseLast, 'L', "close last";
    /// The client closes the ledger that is fenced.
    Finish, 'K', "finish";
    /// The client creates a ledger.
    Create, 'C', "create";
    /// The client appends its ledger to the list.
    Append, 'P', "append";
    /// The client writes, a value or scores.
    Write, 'W', "write";
    /// The client closes its own ledger.
    CloseOwn, 'O', "close own";
}

impl Kind {
    /// Its number, 0 to 9: its place in the reference's order of steps.
    pub const fn number(self) -> u64 {
        self as u64
    }

    /// The kind of a number. A number of 10 or above is none.
    pub const fn from_number(number: u64) -> Option<Kind> {
        if number < Kind::ALL.len() as u64 { Some(Kind::ALL[number as usize]) } else { None }
    }

    /// The kind of a letter. A small letter is none.
    pub fn from_letter(letter: char) -> Option<Kind> {
        Kind::ALL.into_iter().find(|kind| kind.letter() == letter)
    }
}

/// The name.
impl fmt::Display for Kind {
    fn fmt(&self, f: &mut fmt::Formatter<'_>) -> fmt::Result {
        f.pad(self.name())
    }
}

#[cfg(test)]
mod tests {
    use super::*;

    // As the reference has them, in its order.
    #[test]
    fn the_table() {
        use Kind::*;
        let kinds = [Name, Become, Abdicate, Fetch, CloseLast, Finish, Create, Append, Write, CloseOwn];
        assert_eq!(Kind::ALL, kinds);
        assert_eq!(kinds.map(Kind::letter), ['N', 'B', 'A', 'F', 'L', 'K', 'C', 'P', 'W', 'O']);
        let names =
            ["name", "become", "abdicate", "fetch", "close last", "finish", "create", "append", "write", "close own"];
        assert_eq!(kinds.map(Kind::name), names);
        assert_eq!(kinds.map(|kind| kind.to_string()), names);
        assert_eq!(kinds.map(Kind::number), [0, 1, 2, 3, 4, 5, 6, 7, 8, 9]);
    }

    #[test]
    fn back_from_numbers_and_letters() {
        for kind in Kind::ALL {
            assert_eq!(Kind::from_number(kind.number()), Some(kind));
            assert_eq!(Kind::from_letter(kind.letter()), Some(kind));
            assert_eq!(Kind::from_letter(kind.letter().to_ascii_lowercase()), None);
        }
        for number in [10, 15, 16, 1 << 32, u64::MAX] {
            assert_eq!(Kind::from_number(number), None);
        }
        assert_eq!((0..=255).map(char::from).filter(|&letter| Kind::from_letter(letter).is_some()).count(), 10);
    }
}
