//! Every sentence, and the one table of reasons: what the crate prints, and what the header and the reference say about
//! each refusal.

use cindrolf::{Error, Kind, Refusal, Said, TEXT_BYTES, calls};
use std::collections::HashSet;

const REFUSALS: u64 = 28;
const HEADER: &str = include_str!("../../../include/cindrolf.h");
const REFERENCE: &str = include_str!("../../../docs/REFERENCE.md");

/// The sentence, on a text of 97 bytes of which those behind it must stay.
fn sentence(step: u64, client: u64, refusal: u64) -> String {
    let before: [u8; TEXT_BYTES + 1] = std::array::from_fn(|index| 200 - index as u8);
    let mut text = before;
    let length = calls::sentence(step, client, refusal, &mut text).unwrap();
    assert_eq!(text[length..], before[length..], "bytes behind sentence {step} {client} {refusal}");
    String::from_utf8(text[..length].to_vec()).unwrap()
}

/// The reason that the library gives a refusal.
fn reason(refusal: u64) -> String {
    let sentence = sentence(0, 0, refusal);
    sentence.strip_prefix("name of client 0: ").expect("the form of a sentence").to_owned()
}

#[test]
fn all_sentences_have_the_form_and_differ() {
    let mut all = HashSet::new();
    for kind in Kind::ALL {
        for client in 0..256 {
            for refusal in 1..=REFUSALS {
                let sentence = sentence(kind.number(), client, refusal);
                let reason = sentence.strip_prefix(&format!("{kind} of client {client}: ")).expect(&sentence);
                assert!((1..=64).contains(&reason.len()), "{sentence}");
                assert!(reason.bytes().all(|byte| byte == b' ' || byte.is_ascii_lowercase()), "{sentence}");
                assert!(reason.split(' ').all(|word| !word.is_empty()), "single spaces between words: {sentence}");
                assert!(all.insert(sentence), "given twice: {kind} {client} {refusal}");
            }
        }
    }
    assert_eq!(all.len(), 10 * 256 * 28);
}

#[test]
fn display_is_the_reason() {
    for &refusal in Refusal::ALL {
        assert_eq!(refusal.to_string(), reason(refusal.number()));
        assert_eq!(refusal.sentence(Kind::CloseOwn, 255).unwrap(), format!("close own of client 255: {refusal}"));
    }
}

// A row of the header: #define CINDROLF_REFUSAL_NAME UINT64_C(NUMBER) /* REASON */, or with more after the reason and a colon.
#[test]
fn the_header_has_the_reasons() {
    let mut numbers = vec![];
    for row in HEADER.lines().filter_map(|line| line.strip_prefix("#define CINDROLF_REFUSAL_")) {
        let (number, comment) = row.split_once("UINT64_C(").and_then(|(_, rest)| rest.split_once(')')).expect(row);
        let comment = comment.trim().strip_prefix("/* ").and_then(|text| text.strip_suffix(" */")).expect(row);
        let number = number.parse().expect(row);
        assert_eq!(comment.split(": ").next(), Some(reason(number).as_str()));
        numbers.push(number);
    }
    assert_eq!(numbers, Refusal::ALL.iter().map(|refusal| refusal.number()).collect::<Vec<_>>());
}

// A row of the reference: | NUMBER | NAME | SENTENCE | and more. tests/reference.rs looks at the others.
#[test]
fn the_reference_has_the_reasons() {
    let (_, section) = REFERENCE.split_once("\n## The refusals\n").expect("its section");
    let section = section.split("\n## ").next().expect("its text");
    for &refusal in Refusal::ALL {
        let row = format!("| {} | {refusal:?} | {} | ", refusal.number(), reason(refusal.number()));
        assert_eq!(section.lines().filter(|line| line.starts_with(&row)).count(), 1, "{row}");
    }
    assert_eq!(section.lines().filter(|line| line.starts_with("| ")).count(), 1 + REFUSALS as usize);
}

#[test]
fn refusals_change_no_byte() {
    let none = Err(Error::Refused(Refusal::NoSentence));
    let short = Err(Error::Refused(Refusal::TextTooShort));
    let far = [256, 1 << 32, 1 << 63, u64::MAX];
    let mut text = vec![7; TEXT_BYTES];
    for number in far {
        for [step, client, refusal] in
            [[10, 0, 1], [0, 256, 1], [0, 0, 29], [0, 0, 0], [number, 0, 1], [0, number, 1], [0, 0, number]]
        {
            assert_eq!(calls::sentence(step, client, refusal, &mut text), none);
            assert_eq!(calls::sentence(step, client, refusal, &mut text[..TEXT_BYTES - 1]), short);
            assert_eq!(calls::sentence(step, client, refusal, &mut []), short);
        }
    }
    assert_eq!(calls::sentence(0, 0, 1, &mut text[..TEXT_BYTES - 1]), short);
    assert_eq!(text, [7; TEXT_BYTES]);
}

#[test]
fn sentences_are_read_back() {
    for kind in Kind::ALL {
        for client in 0..256 {
            for &refusal in Refusal::ALL {
                let sentence = sentence(kind.number(), client, refusal.number());
                assert_eq!(calls::read_sentence(sentence.as_bytes()), Ok(Some(Said { kind, client, refusal })));
            }
        }
    }
}

#[test]
fn other_texts_are_none() {
    let sentence = b"write of client 7: the log is full";
    for at in 0..sentence.len() {
        let mut text = sentence.to_vec();
        text[at] ^= 32;
        assert_eq!(calls::read_sentence(&text), Ok(None), "{}", String::from_utf8_lossy(&text));
        assert_eq!(calls::read_sentence(&sentence[..at]), Ok(None));
        assert_eq!(calls::read_sentence(&sentence[at + 1..]), Ok(None));
    }
    for text in
        ["write of client 256: the log is full", "write of client 07: the log is full", "of client 7: the log is full"]
    {
        assert_eq!(calls::read_sentence(text.as_bytes()), Ok(None), "{text}");
    }
    assert_eq!(calls::read_sentence(&[sentence.as_slice(), b" "].concat()), Ok(None));
    assert_eq!(calls::read_sentence(&[sentence.as_slice(), &[0; 200_000]].concat()), Ok(None));
}
