//! The last row of a journal by its number and its chain value, which a controller keeps to find a lost tail.

use crate::Known;
use std::fmt;
use std::str::FromStr;

/// The last row that a journal had. A log that still has it has every row up to it, each as it was stored: a chain value is
/// over all rows before it.
///
/// It is written as `N:CHAIN`, a number and 32 hexadecimal digits, and read from that.
#[derive(Clone, Copy, Debug, PartialEq, Eq)]
pub struct LastRow {
    /// Its number; 0 if there is no row but the fresh log.
    pub number: i64,
    /// Its chain value, as a number.
    pub chain: u128,
}

impl LastRow {
    pub(crate) fn of(known: Known) -> Self {
        LastRow { number: known.rows, chain: u128::from_be_bytes(known.chain) }
    }
}

/// A text that is no [`LastRow`].
#[derive(Clone, Copy, Debug, PartialEq, Eq)]
pub struct NoLastRow;

impl fmt::Display for LastRow {
    fn fmt(&self, f: &mut fmt::Formatter<'_>) -> fmt::Result {
        write!(f, "{}:{:032x}", self.number, self.chain)
    }
}

impl FromStr for LastRow {
    type Err = NoLastRow;

    fn from_str(text: &str) -> Result<Self, NoLastRow> {
        let (number, sum) = text.split_once(':').ok_or(NoLastRow)?;
        // What Rust reads as a number may also begin with a sign.
        let digits = |text: &str, radix| !text.is_empty() && text.chars().all(|digit| digit.is_digit(radix));
        if !digits(number, 10) || !digits(sum, 16) || sum.len() != 32 {
            return Err(NoLastRow);
        }
        let number = number.parse().map_err(|_| NoLastRow)?;
        let chain = u128::from_str_radix(sum, 16).map_err(|_| NoLastRow)?;
        Ok(LastRow { number, chain })
    }
}

impl fmt::Display for NoLastRow {
    fn fmt(&self, f: &mut fmt::Formatter<'_>) -> fmt::Result {
        f.write_str("it is no row number, colon and chain value of 32 hexadecimal digits")
    }
}

impl std::error::Error for NoLastRow {}

#[cfg(test)]
mod tests {
    use super::*;

    #[test]
    fn as_text() {
        let row = LastRow { number: 12, chain: 0x0123_4567_89AB_CDEF_0123_4567_89AB_CDEF };
        assert_eq!(row.to_string(), "12:0123456789abcdef0123456789abcdef");
        assert_eq!("12:0123456789ABCDEF0123456789ABCDEF".parse(), Ok(row));
        let none = "0:00000000000000000000000000000000";
        assert_eq!(none.parse(), Ok(LastRow { number: 0, chain: 0 }));
        assert_eq!(LastRow { number: 0, chain: 0 }.to_string(), none);
        let digits = "0123456789abcdef0123456789abcdef";
        let wrong = [
            String::new(),
            ":".into(),
            "12".into(),
            "12:".into(),
            format!(":{digits}"),
            "12:0123456789abcdef".into(),
            format!("-1:{digits}"),
            format!("+1:{digits}"),
            format!("1:+{}", &digits[1..]),
            format!("1:{digits}0"),
            format!("1:{}g", &digits[1..]),
            format!("99999999999999999999:{digits}"),
        ];
        for text in wrong {
            assert_eq!(text.parse::<LastRow>(), Err(NoLastRow), "{text}");
        }
    }
}
