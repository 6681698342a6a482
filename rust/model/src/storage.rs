//! Words rearranged for storage, and restored, as the reference describes it. They need not be a log.

use crate::Answer;

/// The most words that are taken.
pub const WORDS_LIMIT: usize = 4096;

const REFUSED: Answer = Answer::Refused(26);

fn is_taken(words: usize, bytes: usize) -> bool {
    words <= WORDS_LIMIT && words * 8 == bytes
}

/// The word and the one before it, as far as there is one: how far it is from one to the other, going up past 2^64 - 1 to 0.
fn step(before: Option<u64>, word: u64) -> u64 {
    let apart = i128::from(word) - i128::from(before.unwrap_or(0));
    apart.rem_euclid(1 << 64) as u64
}

/// Writes the steps between the words: their first bytes, then their second bytes, and so on.
pub fn rearrange(words: &[u64], bytes: &mut [u8]) -> Answer {
    if !is_taken(words.len(), bytes.len()) {
        return REFUSED;
    }
    let mut columns: [Vec<u8>; 8] = Default::default();
    let mut before = None;
    for &word in words {
        for (column, byte) in columns.iter_mut().zip(step(before, word).to_be_bytes()) {
            column.push(byte);
        }
        before = Some(word);
    }
    bytes.copy_from_slice(&columns.concat());
    Answer::Done
}

/// The way back.
pub fn restore(bytes: &[u8], words: &mut [u64]) -> Answer {
    if !is_taken(words.len(), bytes.len()) {
        return REFUSED;
    }
    let mut reached: u128 = 0;
    for index in 0..words.len() {
        let step: Vec<u8> = bytes.iter().skip(index).step_by(words.len()).copied().collect();
        reached += u128::from(u64::from_be_bytes(step.try_into().expect("there are eight columns")));
        words[index] = (reached % (1 << 64)) as u64;
    }
    Answer::Done
}
