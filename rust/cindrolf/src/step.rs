//! A step: a kind and a value.

use crate::Kind;

/// A step that a client takes: its kind, and the value that a write stores. A write of scores is none: it has a call of
/// its own.
///
/// The nine kinds that store nothing have a constant each, so that their value isn't asked for.
///
/// ```
/// use cindrolf::{Kind, Step};
///
/// let write = Step::write(201);
/// assert_eq!((write.kind(), write.value()), (Kind::Write, 201));
/// assert_eq!(Step::new(Kind::Write, 201), write);
/// // What stores nothing has no value.
/// assert_eq!(Step::new(Kind::Fetch, 201), Step::FETCH);
/// ```
#[derive(Clone, Copy, Debug, PartialEq, Eq, Hash)]
pub struct Step {
    kind: Kind,
    /// 0 where it is no write, so that equal steps have equal words.
    value: u64,
}

macro_rules! valueless {
    ($($constant:ident, $kind:ident;)*) => {
        impl Step {
            $(
                #[doc = concat!("The step of kind [`Kind::", stringify!($kind), "`].")]
                pub const $constant: Step = Step::new(Kind::$kind, 0);
            )*
        }
    };
}

valueless! {
    NAME, Name;
    BECOME, Become;
    ABDICATE, Abdicate;
    FETCH, Fetch;
    CLOSE_LAST, CloseLast;
    FINISH, Finish;
    CREATE, Create;
    APPEND, Append;
    CLOSE_OWN, CloseOwn;
}

impl Step {
    /// A step of this kind, as one follows an advice. The value counts only for a write.
    pub const fn new(kind: Kind, value: u64) -> Step {
        match kind {
            Kind::Write => Step { kind, value },
            _ => Step { kind, value: 0 },
        }
    }

    /// A write of this value.
    pub const fn write(value: u64) -> Step {
        Step::new(Kind::Write, value)
    }

    /// Its kind.
    pub const fn kind(self) -> Kind {
        self.kind
    }

    /// The value that a write stores; 0 where it is no write.
    pub const fn value(self) -> u64 {
        self.value
    }
}

#[cfg(test)]
mod tests {
    use super::*;

    #[test]
    fn a_kind_and_a_value() {
        let nine = [
            Step::NAME,
            Step::BECOME,
            Step::ABDICATE,
            Step::FETCH,
            Step::CLOSE_LAST,
            Step::FINISH,
            Step::CREATE,
            Step::APPEND,
            Step::CLOSE_OWN,
        ];
        let kinds = Kind::ALL.into_iter().filter(|&kind| kind != Kind::Write);
        assert!(nine.iter().map(|step| step.kind()).eq(kinds));
        for step in nine {
            assert_eq!(Step::new(step.kind(), u64::MAX), step);
            assert_eq!(step.value(), 0);
        }
        for value in [0, 1, u64::MAX] {
            let write = Step::write(value);
            assert_eq!((write.kind(), write.value()), (Kind::Write, value));
            assert_eq!(Step::new(Kind::Write, value), write);
        }
        assert_ne!(Step::write(0), Step::write(1));
    }
}
