//! Refusals in words: every sentence, and any numbers with text buffers of any length, on the library and on the model. Every byte
//! is compared, also those around the buffer.

use model::random::Random;
use model::sentences::{LAST_CLIENT, LAST_REFUSAL, STEPS, TEXT_BYTES};
use std::fmt;

/// What a sentence is asked for, and the length of the text buffer.
#[derive(Clone, Copy, Debug, PartialEq, Eq)]
pub struct Asked {
    /// The step's number.
    pub step: u64,
    /// The client's number.
    pub client: u64,
    /// The refusal's number.
    pub refusal: u64,
    /// The bytes of the text buffer.
    pub bytes: usize,
}

/// What is compared with the model: it answers the sentence's length or a refusal's number, and writes to the text.
pub type Subject = fn(Asked, &mut [u8]) -> Result<usize, u64>;

/// Bytes on either side of the text that is lent. The number is odd, so that a text begins where no allocation does.
const AROUND: usize = 17;

/// How often each kind of answer was met.
#[derive(Clone, Copy, Debug, Default, PartialEq, Eq)]
pub struct Met {
    /// Sentences.
    pub sentences: u64,
    /// 27.
    pub too_short: u64,
    /// 28.
    pub none: u64,
}

impl fmt::Display for Met {
    fn fmt(&self, f: &mut fmt::Formatter<'_>) -> fmt::Result {
        let Met { sentences, too_short, none } = self;
        writeln!(
            f,
            "sentence    {:>10} calls:  done {sentences}  refusal 27 {too_short}  refusal 28 {none}",
            self.calls()
        )
    }
}

impl Met {
    /// How many calls were compared.
    pub fn calls(&self) -> u64 {
        self.sentences + self.too_short + self.none
    }
}

/// The model's side.
pub fn model(asked: Asked, text: &mut [u8]) -> Result<usize, u64> {
    model::sentences::write(asked.step, asked.client, asked.refusal, text)
}

/// The library's side, through the crate for controllers. What that doesn't hand on shows as a difference.
pub fn library(asked: Asked, text: &mut [u8]) -> Result<usize, u64> {
    use cindrolf::{calls, raw};
    let Asked { step, client, refusal, .. } = asked;
    // SAFETY: the text is exclusive and valid for its length, and the numbers are any numbers.
    let given = unsafe { raw::cindrolf_sentence(step, client, refusal, text.as_mut_ptr(), text.len()) };
    let number = |error: cindrolf::Error| error.refusal().map_or(u64::MAX, |refusal| refusal.number());
    let handed_on = calls::sentence(step, client, refusal, text).map_err(number);
    let outcome = match given.answer {
        0 => Ok(given.length as usize),
        answer if given.length == 0 => Err(answer.wrapping_sub(256)),
        _ => Err(u64::MAX),
    };
    if outcome == handed_on { outcome } else { Err(u64::MAX) }
}

/// Compares one call on a text of these bytes.
fn compare(subject: Subject, asked: Asked, fill: impl Fn(usize) -> u8, met: &mut Met) -> Result<(), String> {
    let before: Vec<u8> = (0..asked.bytes + 2 * AROUND).map(fill).collect();
    let (mut left, mut right) = (before.clone(), before);
    let given = subject(asked, &mut left[AROUND..AROUND + asked.bytes]);
    let expected = model(asked, &mut right[AROUND..AROUND + asked.bytes]);
    if given != expected || left != right {
        let text =
            |bytes: &[u8]| String::from_utf8_lossy(&bytes[AROUND..AROUND + asked.bytes.min(TEXT_BYTES)]).into_owned();
        let sides =
            format!("the library gives {given:?}, {:?}, the model {expected:?}, {:?}", text(&left), text(&right));
        return Err(format!("{asked:?}: {sides}\n"));
    }
    match expected {
        Ok(_) => met.sentences += 1,
        Err(27) => met.too_short += 1,
        Err(_) => met.none += 1,
    }
    Ok(())
}

/// Compares every sentence, each on the shortest text.
pub fn all(subject: Subject, met: &mut Met) -> Result<(), String> {
    for step in 0..STEPS.len() as u64 {
        for client in 0..=LAST_CLIENT {
            for refusal in 1..=LAST_REFUSAL {
                compare(subject, Asked { step, client, refusal, bytes: TEXT_BYTES }, |index| !(index as u8), met)?;
            }
        }
    }
    Ok(())
}

/// Compares one call with any numbers and any length.
pub fn any(subject: Subject, random: &mut Random, met: &mut Met) -> Result<(), String> {
    let asked = Asked {
        step: any_number(random, 0, STEPS.len() as u64 - 1),
        client: any_number(random, 0, LAST_CLIENT),
        refusal: any_number(random, 1, LAST_REFUSAL),
        bytes: any_length(random),
    };
    let seed = random.word();
    compare(subject, asked, |index| (seed >> (index % 57)) as u8, met)
}

/// A number that has a sentence, one beside those, one that is the same in its low bits, or any.
fn any_number(random: &mut Random, first: u64, last: u64) -> u64 {
    let number = random.between(first, last);
    match random.below(16) {
        0 => random.pick(&[first.wrapping_sub(1), last + 1, last + 2, u64::MAX]),
        1 => number + (1 << random.between(8, 63)),
        2 => random.word(),
        3 => random.pick(&[first, last]),
        _ => number,
    }
}

fn any_length(random: &mut Random) -> usize {
    match random.below(8) {
        0 => random.pick(&[0, 1, TEXT_BYTES / 2, TEXT_BYTES - 2]),
        1 => TEXT_BYTES - 1,
        2 => TEXT_BYTES + 1,
        3 => random.below(2 * TEXT_BYTES as u64) as usize,
        4 => 4096,
        _ => TEXT_BYTES,
    }
}
