//! The comparison of refusals in words finds planted faults, and meets every answer.

use compare::sentences::{Asked, Met, Subject, all, any, library, model};
use model::random::Random;
use model::sentences::{LAST_CLIENT, STEPS, sentence};

/// The first report on every sentence, and then on random calls.
fn report(subject: Subject) -> Option<String> {
    let (mut random, mut met) = (Random::new(5), Met::default());
    let random_calls = (0..50_000).find_map(|_| any(subject, &mut random, &mut met).err());
    all(subject, &mut met).err().or(random_calls)
}

/// Writes another text in place of a sentence.
fn instead(asked: Asked, text: &mut [u8], sentence: impl FnOnce() -> String) -> Result<usize, u64> {
    model(asked, text)?;
    let sentence = sentence();
    text[..sentence.len()].copy_from_slice(sentence.as_bytes());
    Ok(sentence.len())
}

fn numbers_before_the_buffer(asked: Asked, text: &mut [u8]) -> Result<usize, u64> {
    let mut enough = [0; 96];
    let unnumbered = model(Asked { bytes: 96, ..asked }, &mut enough) == Err(28);
    if unnumbered { Err(28) } else { model(asked, text) }
}

fn clears_the_byte_behind(asked: Asked, text: &mut [u8]) -> Result<usize, u64> {
    let length = model(asked, text)?;
    text[length] = 0;
    Ok(length)
}

fn clears_the_rest(asked: Asked, text: &mut [u8]) -> Result<usize, u64> {
    let length = model(asked, text)?;
    text[length..].fill(b' ');
    Ok(length)
}

fn leading_zeros(asked: Asked, text: &mut [u8]) -> Result<usize, u64> {
    instead(asked, text, || {
        let sentence = sentence(asked.step, asked.client, asked.refusal);
        sentence.replacen(&format!("client {}", asked.client), &format!("client {:03}", asked.client), 1)
    })
}

fn two_reasons_alike(asked: Asked, text: &mut [u8]) -> Result<usize, u64> {
    let refusal = if asked.refusal == 23 { 22 } else { asked.refusal };
    instead(asked, text, || sentence(asked.step, asked.client, refusal))
}

fn finish_as_close_last(asked: Asked, text: &mut [u8]) -> Result<usize, u64> {
    instead(asked, text, || sentence(asked.step, asked.client, asked.refusal).replacen("finish", "close last", 1))
}

fn cuts_the_client(asked: Asked, text: &mut [u8]) -> Result<usize, u64> {
    model(Asked { client: asked.client % (LAST_CLIENT + 1), ..asked }, text)
}

fn cuts_the_step(asked: Asked, text: &mut [u8]) -> Result<usize, u64> {
    let step = asked.step & 15;
    model(Asked { step: if step < STEPS.len() as u64 { step } else { asked.step }, ..asked }, text)
}

fn says_the_withdrawn_never(asked: Asked, text: &mut [u8]) -> Result<usize, u64> {
    if text.len() >= 96 && asked.refusal == 14 { Err(28) } else { model(asked, text) }
}

fn writes_before_it_refuses(asked: Asked, text: &mut [u8]) -> Result<usize, u64> {
    let answer = model(asked, text);
    if let (Err(28), Some(first)) = (answer, text.first_mut()) {
        *first = b'?';
    }
    answer
}

fn takes_one_byte_less(asked: Asked, text: &mut [u8]) -> Result<usize, u64> {
    let mut enough = [0; 96];
    match model(asked, text) {
        Err(27) if text.len() == 95 => {
            let length = model(Asked { bytes: 96, ..asked }, &mut enough)?;
            text[..length].copy_from_slice(&enough[..length]);
            Ok(length)
        }
        answer => answer,
    }
}

#[test]
fn finds_planted_faults() {
    let faults: [(&str, Subject); 11] = [
        ("28 before 27", numbers_before_the_buffer),
        ("a byte behind", clears_the_byte_behind),
        ("all bytes behind", clears_the_rest),
        ("leading zeros", leading_zeros),
        ("two reasons alike", two_reasons_alike),
        ("two steps alike", finish_as_close_last),
        ("a client of eight bits", cuts_the_client),
        ("a step of four bits", cuts_the_step),
        ("no sentence for 14", says_the_withdrawn_never),
        ("a byte written and refused", writes_before_it_refuses),
        ("a text of 95 bytes", takes_one_byte_less),
    ];
    for (name, fault) in faults {
        assert!(report(fault).is_some(), "{name} isn't found");
    }
}

#[test]
fn the_library_agrees_and_every_answer_is_met() {
    let (mut random, mut met) = (Random::new(6), Met::default());
    all(library, &mut met).unwrap();
    assert_eq!(met, Met { sentences: 10 * 256 * 28, ..Met::default() });
    for _ in 0..100_000 {
        any(library, &mut random, &mut met).unwrap();
    }
    assert!(met.too_short > 1_000 && met.none > 1_000, "{met:?}");
}
