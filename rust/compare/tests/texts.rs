//! The comparison of texts that are read finds planted faults, and meets both answers.

use compare::texts::{Met, Subject, all, any, edges, library};
use model::random::Random;
use model::sentences::{Numbers, read};

/// The first report on every sentence, on the edges, and on random texts.
fn report(subject: Subject) -> Option<String> {
    let (mut random, mut met) = (Random::new(5), Met::default());
    let random_texts = (0..20_000).find_map(|_| any(subject, &mut random, &mut met).err());
    all(subject, &mut met).and_then(|()| edges(subject, &mut met)).err().or(random_texts)
}

/// The text as words, with the client's number given in place of its digits.
fn with_client(text: &[u8], number: impl FnOnce(&str) -> String) -> Option<Vec<u8>> {
    let text = std::str::from_utf8(text).ok()?;
    let (name, rest) = text.split_once(" of client ")?;
    let (client, reason) = rest.split_once(": ")?;
    client.bytes().all(|byte| byte.is_ascii_digit()).then(|| {
        let client = number(client);
        format!("{name} of client {client}: {reason}").into_bytes()
    })
}

fn takes_leading_zeros(text: &[u8]) -> Option<Numbers> {
    let without = |client: &str| client.parse::<u128>().map_or(String::new(), |client| client.to_string());
    read(text).or_else(|| read(&with_client(text, without)?))
}

fn cuts_the_client(text: &[u8]) -> Option<Numbers> {
    let low = |client: &str| client.parse::<u64>().map_or(String::new(), |client| (client as u8).to_string());
    if text.len() > 96 { read(text) } else { read(&with_client(text, low)?) }
}

fn takes_client_256(text: &[u8]) -> Option<Numbers> {
    let client = with_client(text, |client| if client == "256" { "255".to_owned() } else { client.to_owned() });
    read(text).or_else(|| read(&client?).map(|numbers| Numbers { client: 256, ..numbers }))
}

fn takes_bytes_behind(text: &[u8]) -> Option<Numbers> {
    (0..=text.len().min(90)).rev().find_map(|end| read(&text[..end]))
}

fn takes_bytes_before(text: &[u8]) -> Option<Numbers> {
    (text.len().saturating_sub(90)..=text.len()).find_map(|start| read(&text[start..]))
}

fn takes_a_line_end(text: &[u8]) -> Option<Numbers> {
    read(text.strip_suffix(b"\n").unwrap_or(text))
}

fn takes_large_letters(text: &[u8]) -> Option<Numbers> {
    read(&text.to_ascii_lowercase())
}

fn takes_two_spaces(text: &[u8]) -> Option<Numbers> {
    read(text).or_else(|| read(&String::from_utf8_lossy(text).replacen("  ", " ", 1).into_bytes()))
}

fn never_reads_the_withdrawn(text: &[u8]) -> Option<Numbers> {
    read(text).filter(|numbers| numbers.refusal != 14)
}

fn exchanges_the_last_two(text: &[u8]) -> Option<Numbers> {
    read(text).map(|numbers| match numbers.refusal {
        refusal @ (27 | 28) => Numbers { refusal: 55 - refusal, ..numbers },
        _ => numbers,
    })
}

fn reads_a_step_too_far(text: &[u8]) -> Option<Numbers> {
    read(text).map(|numbers| Numbers { step: numbers.step + 1, ..numbers })
}

#[test]
fn finds_planted_faults() {
    let faults: [(&str, Subject); 11] = [
        ("leading zeros", takes_leading_zeros),
        ("a client of eight bits", cuts_the_client),
        ("client 256", takes_client_256),
        ("bytes behind", takes_bytes_behind),
        ("bytes before", takes_bytes_before),
        ("a line's end", takes_a_line_end),
        ("large letters", takes_large_letters),
        ("two spaces", takes_two_spaces),
        ("no 14", never_reads_the_withdrawn),
        ("27 and 28 exchanged", exchanges_the_last_two),
        ("steps from one", reads_a_step_too_far),
    ];
    for (name, fault) in faults {
        assert!(report(fault).is_some(), "{name} isn't found");
    }
}

#[test]
fn the_library_agrees_and_both_answers_are_met() {
    let (mut random, mut met) = (Random::new(6), Met::default());
    all(library, &mut met).unwrap();
    assert_eq!(met, Met { sentences: 10 * 256 * 28, others: 0 });
    edges(library, &mut met).unwrap();
    assert_eq!(met.sentences, 10 * 256 * 28 + 10 * 28, "at the edges, each sentence whole");
    for _ in 0..100_000 {
        any(library, &mut random, &mut met).unwrap();
    }
    assert!(met.sentences > 100_000 && met.others > 50_000, "{met:?}");
}
