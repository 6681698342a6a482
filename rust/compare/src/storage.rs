//! Words rearranged for storage and restored: both sides of a call on lent words and bytes of any length and content.

use cindrolf::raw;
use model::Answer;
use model::random::Random;
use std::fmt;

/// One of the two ways.
#[derive(Clone, Copy, Debug, PartialEq, Eq)]
pub enum Way {
    /// Words to bytes.
    Rearrange,
    /// Bytes to words.
    Restore,
}

/// What is lent to a call. Either way, one of the two is only read.
#[derive(Clone, Debug, PartialEq, Eq)]
pub struct Lent {
    /// The words.
    pub words: Vec<u64>,
    /// The bytes.
    pub bytes: Vec<u8>,
}

/// What is compared with the model.
pub type Subject = fn(Way, &mut [u64], &mut [u8]) -> Answer;

/// The library's side.
pub fn library(way: Way, words: &mut [u64], bytes: &mut [u8]) -> Answer {
    // SAFETY: both slices are exclusive and do not overlap, and are valid for their lengths.
    let number = unsafe {
        match way {
            Way::Rearrange => raw::cindrolf_rearrange(words.as_ptr(), words.len(), bytes.as_mut_ptr(), bytes.len()),
            Way::Restore => raw::cindrolf_restore(bytes.as_ptr(), bytes.len(), words.as_mut_ptr(), words.len()),
        }
    };
    match number {
        0 => Answer::Done,
        257..=511 => Answer::Refused(number - 256),
        _ => panic!("the library answered {number}"),
    }
}

/// The model's side.
pub fn model(way: Way, words: &mut [u64], bytes: &mut [u8]) -> Answer {
    match way {
        Way::Rearrange => model::storage::rearrange(words, bytes),
        Way::Restore => model::storage::restore(bytes, words),
    }
}

/// How many calls were compared, by way: those that were done, and those that were refused.
#[derive(Clone, Copy, Debug, Default, PartialEq, Eq)]
pub struct Counts {
    /// Words rearranged, and refused.
    pub rearrange: (u64, u64),
    /// Words restored, and refused.
    pub restore: (u64, u64),
}

impl Counts {
    /// All of them.
    pub fn calls(&self) -> u64 {
        self.rearrange.0 + self.rearrange.1 + self.restore.0 + self.restore.1
    }

    fn count(&mut self, way: Way, answer: Answer) {
        let counts = match way {
            Way::Rearrange => &mut self.rearrange,
            Way::Restore => &mut self.restore,
        };
        let count = if answer == Answer::Done { &mut counts.0 } else { &mut counts.1 };
        *count += 1;
    }
}

impl fmt::Display for Counts {
    fn fmt(&self, f: &mut fmt::Formatter<'_>) -> fmt::Result {
        for (name, (done, refused)) in [("rearrange", self.rearrange), ("restore", self.restore)] {
            writeln!(f, "{name:<12}{:>10} calls:  done {done}  refusal 26 {refused}", done + refused)?;
        }
        Ok(())
    }
}

/// Items on either side of what the subject is lent. The number is odd, so that lent bytes begin at an odd address.
const AROUND: usize = 17;

fn guarded<T: Clone>(guard: T, items: &[T]) -> Vec<T> {
    let around = vec![guard; AROUND];
    [&around, items, &around].concat()
}

fn middle<T>(guarded: &mut [T]) -> &mut [T] {
    let end = guarded.len() - AROUND;
    &mut guarded[AROUND..end]
}

/// The first place at which two lists part, from the beginning of what was lent.
fn place<T: PartialEq>(ours: &[T], theirs: &[T]) -> Option<i64> {
    ours.iter().zip(theirs).position(|(one, other)| one != other).map(|place| place as i64 - AROUND as i64)
}

/// Takes a call on both sides. Where they part, in the answer or in anything that was lent or stands around it, that is said.
fn difference(subject: Subject, way: Way, lent: &Lent) -> Result<Answer, String> {
    let (mut words, mut bytes) = (guarded(0xA5C3_5A3C, &lent.words), guarded(0x5A, &lent.bytes));
    let (mut model_words, mut model_bytes) = (words.clone(), bytes.clone());
    let given = subject(way, middle(&mut words), middle(&mut bytes));
    let expected = model(way, middle(&mut model_words), middle(&mut model_bytes));
    if given != expected {
        return Err(format!("the answer is {given:?}, the model's {expected:?}"));
    }
    if let Some(place) = place(&words, &model_words) {
        return Err(format!("word {place} differs from the model's"));
    }
    place(&bytes, &model_bytes).map_or(Ok(given), |place| Err(format!("byte {place} differs from the model's")))
}

/// The fewest of these words found that still show a difference, with the bytes cut to as many times eight where they were so.
fn fewer(subject: Subject, way: Way, lent: Lent) -> Lent {
    let over = lent.bytes.len() as i64 - 8 * lent.words.len() as i64;
    let cut = |words: &[u64]| {
        let bytes = (8 * words.len() as i64 + over).max(0) as usize;
        Lent { words: words.to_vec(), bytes: lent.bytes.iter().copied().cycle().take(bytes).collect() }
    };
    let least = crate::shrink::shorten(&lent.words, |words| difference(subject, way, &cut(words)).is_err());
    let least = cut(&least);
    if difference(subject, way, &least).is_err() { least } else { lent }
}

fn call(subject: Subject, counts: &mut Counts, way: Way, lent: Lent) -> Result<(), String> {
    if let Ok(answer) = difference(subject, way, &lent) {
        counts.count(way, answer);
        return Ok(());
    }
    let least = fewer(subject, way, lent);
    let what = difference(subject, way, &least).expect_err("what is left still shows it");
    let (words, bytes) = (least.words.len(), least.bytes.len());
    Err(format!("{way:?} with {words} words and {bytes} bytes: {what}\n  words: {:x?}\n", &least.words[..words.min(8)]))
}

/// The lengths at which something could change, with the bytes as many as wanted, and one or eight too few or too many.
pub fn edges(subject: Subject, counts: &mut Counts) -> Result<(), String> {
    for words in [0, 1, 2, 4095, 4096, 4097] {
        for over in [-8, -1, 0, 1, 8] {
            let bytes = (8 * words as i64 + over).max(0) as usize;
            let lent = Lent {
                words: (0..words as u64).map(|word| word * word * 0x0123_4567_89AB).collect(),
                bytes: (0..bytes).map(|byte| (byte * byte / 7) as u8).collect(),
            };
            call(subject, counts, Way::Rearrange, lent.clone())?;
            call(subject, counts, Way::Restore, lent)?;
        }
    }
    Ok(())
}

/// One random call each way.
pub fn compare(subject: Subject, counts: &mut Counts, random: &mut Random) -> Result<(), String> {
    let lent = any(random);
    call(subject, counts, Way::Rearrange, lent.clone())?;
    call(subject, counts, Way::Restore, lent)
}

/// Words and bytes of any content; mostly as many bytes as wanted.
fn any(random: &mut Random) -> Lent {
    let words = match random.below(8) {
        0 => random.pick(&[0, 1, 2, 4095, 4096, 4097, 8192]),
        1 => random.below(8200) as usize,
        _ => random.below(40) as usize,
    };
    let bytes = match random.below(6) {
        0 => (8 * words).saturating_sub(random.pick(&[1, 8, 4, 16])),
        1 => 8 * words + random.pick(&[1, 8, 4, 16]),
        _ => 8 * words,
    };
    Lent { words: any_words(random, words), bytes: (0..bytes).map(|_| random.word() as u8).collect() }
}

/// Words of one kind: any, near one another, all the same, or at the ends of the range.
fn any_words(random: &mut Random, count: usize) -> Vec<u64> {
    let (kind, first) = (random.below(4), random.word());
    let mut next = || match kind {
        0 => random.word(),
        1 => first.wrapping_add(random.below(2000)).wrapping_sub(1000),
        2 => first,
        _ => random.pick(&[0, 1, u64::MAX, 1 << 63, (1 << 63) - 1]),
    };
    (0..count).map(|_| next()).collect()
}

#[cfg(test)]
mod tests {
    use super::*;

    // No safe subject reaches what stands around its buffers, so it is changed here.
    #[test]
    fn finds_changes_around_what_is_lent() {
        let (ours, mut theirs) = (guarded(1, &[5, 6]), guarded(1, &[5, 6]));
        assert_eq!(place(&ours, &theirs), None);
        theirs[AROUND - 1] = 0;
        assert_eq!(place(&ours, &theirs), Some(-1));
        theirs[AROUND - 1] = 1;
        theirs[AROUND + 2] = 0;
        assert_eq!(place(&ours, &theirs), Some(2));
    }
}
