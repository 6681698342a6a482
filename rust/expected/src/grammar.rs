//! The input of a session, read by writing: a line is good if it is exactly what the reference writes for a step.
//!
//! So the parser need not be trusted to refuse. It only guesses a step, and a wrong guess is written as another line.
//! `rust/session` splits its lines into fields and refuses what is no field; neither uses the other.

use model::Step;

/// The most bytes that a session has. It is not taken from the programs' limits: so a wrong one there shows.
const INPUT_LIMIT: usize = 16_384;

/// The byte that ends a line.
const LINE_END: u8 = 10;

/// A session's client count, and its lines; the last is none where it lacks its line end.
pub struct Session<'a> {
    /// The client count, 1 to 16.
    pub client_count: u64,
    /// The lines after the first, without their ends.
    pub lines: Vec<Option<&'a [u8]>>,
}

impl<'a> Session<'a> {
    /// The session in these bytes, or all that is printed of it.
    pub fn read(input: &'a [u8]) -> Result<Self, &'static str> {
        if input.len() > INPUT_LIMIT {
            return Err("too long\n");
        }
        let (mut lines, mut rest) = (Vec::new(), input);
        while let Some(end) = rest.iter().position(|&byte| byte == LINE_END) {
            lines.push(Some(&rest[..end]));
            rest = &rest[end + 1..];
        }
        if !rest.is_empty() {
            lines.push(None);
        }
        let is_first = |count: &u64| lines.first() == Some(&Some(count.to_string().as_bytes()));
        let client_count = (1..=16).find(is_first).ok_or("bad start\n")?;
        Ok(Session { client_count, lines: lines.split_off(1) })
    }
}

/// The step of each letter, with the value that a write is given.
fn step_of(letter: u8, value: u64) -> Option<Step> {
    Some(match letter {
        b'N' => Step::Name,
        b'B' => Step::Become,
        b'A' => Step::Abdicate,
        b'F' => Step::Fetch,
        b'L' => Step::CloseLast,
        b'K' => Step::Finish,
        b'C' => Step::Create,
        b'P' => Step::Append,
        b'W' => Step::Write(value),
        b'O' => Step::CloseOwn,
        _ => return None,
    })
}

/// What the digits among these bytes come to, if that has 64 bits. All other bytes are passed over.
fn guessed(bytes: &[u8]) -> Option<u64> {
    let digits = bytes.iter().filter_map(|&byte| char::from(byte).to_digit(10));
    digits.map(u64::from).try_fold(0u64, |number, digit| number.checked_mul(10)?.checked_add(digit))
}

/// The step in a line and its client, if the line is good.
pub fn step(line: &[u8]) -> Option<(u64, Step)> {
    let letter = *line.first()?;
    let numbers = line.get(2..)?;
    let client_length = numbers.iter().take_while(|&&byte| byte != b' ').count();
    let (client, value) = (guessed(&numbers[..client_length])?, guessed(&numbers[client_length..])?);
    let step = step_of(letter, value)?;
    let written = match step {
        Step::Write(value) => format!("W {client} {value}"),
        _ => format!("{} {client}", char::from(letter)),
    };
    (client <= 255 && written.as_bytes() == line).then_some((client, step))
}

#[cfg(test)]
mod tests {
    use super::*;

    // As the reference writes them.
    #[test]
    fn good_lines() {
        assert_eq!(step(b"N 0"), Some((0, Step::Name)));
        assert_eq!(step(b"K 255"), Some((255, Step::Finish)));
        assert_eq!(step(b"W 0 0"), Some((0, Step::Write(0))));
        assert_eq!(step(b"W 10 4503599627370496"), Some((10, Step::Write(1 << 52))));
        assert_eq!(step(b"W 255 18446744073709551615"), Some((255, Step::Write(u64::MAX))));
    }

    // What the reference names as bad, and what a guess could miss.
    #[test]
    fn bad_lines() {
        let lines = "|N|N |N  0| N 0|N 0 |n 0|N\t0|N 0\r|N 00|N 07|N 256|N +1|N -0|N 1 1|N 0x1|N0|NN 0|W 0|W 0 |\
                     W 0  1|W 0 1 |W 0 01|W 0 +1|W 0 1 1|W 0 18446744073709551616|W 0 36893488147419103233|\
                     W 256 1|W  1|Z 0|0|0 0";
        for line in lines.split('|') {
            assert_eq!(step(line.as_bytes()), None, "{line:?}");
        }
        assert_eq!(step("N \u{661}".as_bytes()), None, "a digit of another script");
        assert_eq!(step(&[b'N', b' ', 0xB9]), None);
    }
}
