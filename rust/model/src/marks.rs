//! Marks: named points of a run, kept in a third buffer of any length and content, as in the reference.

use crate::Answer;
use crate::layout::Entry;
use crate::words::{Checked, answer, open, refuse_if};
use std::collections::BTreeSet;

/// Words in the marks buffer, two for each mark.
pub const MARK_WORDS: usize = 64;

/// The most marks that are kept.
pub const LIMIT: usize = 32;

/// Bits below the 13 that hold a mark's entry count.
const BELOW_COUNT: u32 = 51;

/// A kept mark.
#[derive(Clone, Copy, Debug, PartialEq, Eq)]
pub struct Mark {
    /// Its name, not 0.
    pub name: u64,
    /// The log's entry count when it was set.
    pub count: u64,
}

/// The buffer that keeps these marks, in their order. There are at most [`LIMIT`].
pub fn buffer(marks: &[Mark]) -> Vec<u64> {
    let mut words: Vec<u64> = marks.iter().flat_map(|mark| [mark.name, mark.count << BELOW_COUNT]).collect();
    words.resize(MARK_WORDS, 0);
    words
}

/// The marks that a buffer keeps beside a log of so many entries; none where it is not well formed. Stray bits, a zero name with a
/// count and a mark behind a zero pair are what no buffer of marks has.
pub fn kept(words: &[u64], entry_count: u64) -> Option<Vec<Mark>> {
    let pairs = words.chunks_exact(2).take_while(|pair| pair[0] != 0);
    let marks: Vec<Mark> = pairs.map(|pair| Mark { name: pair[0], count: pair[1] >> BELOW_COUNT }).collect();
    let names: BTreeSet<u64> = marks.iter().map(|mark| mark.name).collect();
    let possible = names.len() == marks.len() && marks.iter().all(|mark| mark.count <= entry_count);
    (possible && buffer(&marks) == words).then_some(marks)
}

/// The log's entry count and the marks, after the checks that all three calls begin with.
fn open_marks(state: &[u64], entries: &[u64], marks: &[u64]) -> Checked<(u64, Vec<Mark>)> {
    refuse_if(marks.len() != MARK_WORDS, 1)?;
    let count = open(state, entries)?.entry_count;
    Ok((count, kept(marks, count).ok_or(2_u64)?))
}

/// The place of a name among the marks. Name 0 is never kept.
fn place(marks: &[Mark], name: u64) -> Checked<usize> {
    marks.iter().position(|mark| mark.name == name).ok_or(23)
}

/// Sets a mark, behind those that are kept.
pub fn set(state: &[u64], entries: &[u64], words: &mut [u64], name: u64) -> Answer {
    let checked = open_marks(state, entries, words).and_then(|(count, mut marks)| {
        refuse_if(name == 0 || place(&marks, name).is_ok(), 21)?;
        refuse_if(marks.len() == LIMIT, 22)?;
        marks.push(Mark { name, count });
        Ok(marks)
    });
    store(words, checked)
}

/// Drops a mark. The others keep their order, without a gap.
pub fn drop(state: &[u64], entries: &[u64], words: &mut [u64], name: u64) -> Answer {
    let checked = open_marks(state, entries, words).and_then(|(_, mut marks)| {
        marks.remove(place(&marks, name)?);
        Ok(marks)
    });
    store(words, checked)
}

fn store(words: &mut [u64], checked: Checked<Vec<Mark>>) -> Answer {
    answer(checked.map(|marks| {
        words.copy_from_slice(&buffer(&marks));
        Answer::Done
    }))
}

/// Reads at a mark: how many words it wrote to the output buffer, or the refusal's number.
pub fn read(state: &[u64], entries: &[u64], words: &[u64], name: u64, output: &mut [u64]) -> Result<usize, u64> {
    let (_, marks) = open_marks(state, entries, words)?;
    let count = marks[place(&marks, name)?].count as usize;
    refuse_if(output.len() < count, 16)?;
    for (out, &word) in output.iter_mut().zip(&entries[..count]) {
        *out = Entry { ledger: 0, ..Entry::load(word) }.word();
    }
    Ok(count)
}
