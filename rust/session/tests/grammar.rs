//! Lines and whole inputs that are hostile, read by this crate and by `expected`, which reads them in another way.

use expected::grammar;
use model::plans;

/// A session's client count, and each line's client and step; or all that is printed of it.
type Read = Result<(u64, Vec<Option<(u64, model::Step)>>), String>;

/// A line's client and step, by this crate.
fn step(line: &[u8]) -> Option<(u64, model::Step)> {
    let (client, step) = session::step(line)?;
    Some((client, plans::step(step.kind().number(), step.value()).expect("one of ten")))
}

fn read(input: &[u8]) -> Read {
    let session = session::Session::read(input).map_err(|error| format!("{error}\n"))?;
    let lines = session.lines.iter().map(|line| line.ended.then_some(line.bytes).and_then(step));
    assert!(session.lines.iter().all(|line| line.step().is_some() == (line.ended && step(line.bytes).is_some())));
    Ok((session.client_count, lines.collect()))
}

fn expected_read(input: &[u8]) -> Read {
    let session = grammar::Session::read(input)?;
    Ok((session.client_count, session.lines.into_iter().map(|line| line.and_then(grammar::step)).collect()))
}

/// Whether the line is good, which both must say.
fn is_good(line: &[u8]) -> bool {
    let read = step(line);
    assert_eq!(read, grammar::step(line), "{:?}", String::from_utf8_lossy(line));
    read.is_some()
}

fn same(input: &[u8]) -> Read {
    let read = read(input);
    assert_eq!(read, expected_read(input), "{:?}", String::from_utf8_lossy(&input[..input.len().min(80)]));
    read
}

/// Calls this with every string of these bytes, up to a length.
fn each_string(bytes: &[u8], longest: usize, seen: &mut impl FnMut(&[u8])) {
    fn from(bytes: &[u8], longest: usize, begun: &mut Vec<u8>, seen: &mut impl FnMut(&[u8])) {
        seen(begun);
        if begun.len() < longest {
            for &byte in bytes {
                begun.push(byte);
                from(bytes, longest, begun, seen);
                begun.pop();
            }
        }
    }
    from(bytes, longest, &mut Vec::new(), seen);
}

// The good ones, counted by hand. N: 3 clients of one digit, 6 of two and 9 of three, as 900 is no client.
// W, with three digits or fewer in its two numbers: 3 * 3 of one each, 3 * 6 with a longer value, 6 * 3 with a longer
// client.
#[test]
fn every_short_line() {
    let (mut all, mut good) = (0, 0);
    each_string(b"NW 019\t+", 6, &mut |line| {
        all += 1;
        good += u32::from(is_good(line));
    });
    assert_eq!((all, good), ((8_u32.pow(7) - 1) / 7, 18 + 45));
}

// The client counts that the digits 0, 1, 6 and 7 write are 1, 6, 7, 10, 11 and 16.
#[test]
fn every_short_input() {
    let mut starts = std::collections::BTreeSet::new();
    each_string(b"0167\n \r-", 6, &mut |input| {
        if let Ok((count, _)) = same(input) {
            starts.insert(count);
        }
    });
    assert_eq!(starts.into_iter().collect::<Vec<_>>(), [1, 6, 7, 10, 11, 16]);
    let mut taken = 0;
    each_string(b"B0\n ", 8, &mut |rest| {
        let (_, lines) = same(&[b"2\n", rest].concat()).expect("a good start");
        taken += lines.iter().flatten().count();
    });
    assert!(taken > 0);
}

// A byte changed, put in and taken out, at each place of good lines.
#[test]
fn one_byte_at_each_place() {
    for good in ["N 0", "O 255", "L 19", "W 0 0", "W 255 4503599627370496", "W 9 18446744073709551615"] {
        assert!(is_good(good.as_bytes()));
        for at in 0..=good.len() {
            for byte in 0..=255 {
                let (before, after) = good.as_bytes().split_at(at);
                is_good(&[before, &[byte], after].concat());
                is_good(&[before, &[byte], after.get(1..).unwrap_or_default()].concat());
                is_good(&[before, after.get(1..).unwrap_or_default()].concat());
                same(&[b"16\n", before, &[byte], after, b"\nB 0\n"].concat()).expect("a good start");
            }
        }
    }
    let letters: Vec<u8> = (0..=255).filter(|&letter| is_good(&[letter, b' ', b'0'])).collect();
    assert_eq!(letters, b"ABCFKLNOP");
    let letters: Vec<u8> = (0..=255).filter(|&letter| is_good(&[letter, b' ', b'0', b' ', b'0'])).collect();
    assert_eq!(letters, b"W");
}

/// Numbers about the limits, about what wraps round to a small one, and in other forms than the reference's.
fn numbers() -> Vec<String> {
    let edges =
        [0, 10, 16, 17, 99, 100, 255, 256, 1 << 52, 1 << 63, 1 << 64, 1 << 65, 10_u128.pow(19), 10_u128.pow(20)];
    let plain =
        edges.iter().flat_map(|edge| [edge.saturating_sub(1), *edge, edge + 1]).chain([(1 << 64) + 255, u128::MAX]);
    let mut numbers: Vec<String> = plain.map(|number| number.to_string()).collect();
    // 2^128 and 2^128 + 7.
    numbers.extend(
        ["340282366920938463463374607431768211456", "340282366920938463463374607431768211463"].map(String::from),
    );
    numbers.extend(["", "1".repeat(400).as_str(), "1e2", "1_0", "0x10", "1.0", "1,0", "٣", "１"].map(String::from));
    let forms = ["+", "-", "0", "00", " ", "\t", "\r", "\0", "\u{a0}"]
        .into_iter()
        .flat_map(|sign| numbers.iter().flat_map(move |number| [format!("{sign}{number}"), format!("{number}{sign}")]));
    let forms: Vec<String> = forms.collect();
    numbers.extend(forms);
    numbers
}

// A number as a client, as a value, as both, and as the client count.
#[test]
fn numbers_at_their_limits() {
    let numbers = numbers();
    let is = |line: String| is_good(line.as_bytes());
    let clients: std::collections::BTreeSet<_> = numbers.iter().filter(|number| is(format!("B {number}"))).collect();
    let values: std::collections::BTreeSet<_> = numbers.iter().filter(|number| is(format!("W 7 {number}"))).collect();
    for (number, client, value) in [
        ("255", true, true),
        ("256", false, true),
        ("18446744073709551615", false, true),
        ("18446744073709551616", false, false),
        ("18446744073709551871", false, false),
        ("340282366920938463463374607431768211463", false, false),
        ("+1", false, false),
        ("-0", false, false),
        ("00", false, false),
        ("010", false, false),
    ] {
        assert!(numbers.iter().any(|known| known == number), "{number}");
        let number = &number.to_string();
        assert_eq!((clients.contains(number), values.contains(number)), (client, value), "{number}");
    }
    for client in &numbers {
        for value in &numbers {
            is(format!("W {client} {value}"));
        }
        let start = same(format!("{client}\nB 0\n").as_bytes());
        assert_eq!(
            start.is_ok(),
            client.parse().is_ok_and(|count: u64| (1..=16).contains(&count) && count.to_string() == *client)
        );
    }
}

// The last line without its end, and as many bytes as a session has, one less and one more.
#[test]
fn ends_and_lengths() {
    for (input, lines) in
        [("2\n", 0), ("2\nB 0", 1), ("2\nB 0\n", 1), ("2\n\n", 1), ("2\nB 0\nF 0", 2), ("2\n \n\n\r", 3)]
    {
        assert_eq!(same(input.as_bytes()).expect("a good start").1.len(), lines, "{input:?}");
    }
    assert_eq!(same(b"2\nB 0"), Ok((2, vec![None])));
    for input in ["", "\n", "2", "2\r\n", "02\n", "0\n", "17\n", " 2\n", "2 \n", "\n2\n"] {
        assert_eq!(same(input.as_bytes()), Err("bad start\n".into()), "{input:?}");
    }
    for filling in ["\n", "B 0\n", "W 0 18446744073709551615\n", "x", "1"] {
        for length in [16_383, 16_384, 16_385, 16_386, 65_536] {
            for beginning in ["2\n", "", "2"] {
                let input: Vec<u8> = beginning.bytes().chain(filling.bytes().cycle()).take(length).collect();
                let read = same(&input);
                assert_eq!(read == Err("too long\n".into()), length > 16_384, "{length} bytes of {filling:?}");
            }
        }
    }
}
