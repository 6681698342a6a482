//! Refusals in words, as in the reference. The reasons are read from its text.

use crate::words::{Checked, refuse_if};
use std::collections::HashMap;
use std::sync::LazyLock;

/// The fewest bytes of a text buffer.
pub const TEXT_BYTES: usize = 96;

/// The names of the steps, by their numbers.
pub const STEPS: [&str; 10] =
    ["name", "become", "abdicate", "fetch", "close last", "finish", "create", "append", "write", "close own"];

/// The largest client that a sentence names.
pub const LAST_CLIENT: u64 = 255;
/// The last refusal that has a sentence.
pub const LAST_REFUSAL: u64 = 28;

const REFERENCE: &str = include_str!("../../../docs/REFERENCE.md");

/// How the reference's table of refusals begins.
const REFUSALS: &str =
    "\n| Number | Name | Sentence | Condition | Given by | What to do |\n|---|---|---|---|---|---|\n";

/// The reasons of the refusals from 1 on: the sentences of the reference's table of refusals.
pub static REASONS: LazyLock<Vec<&str>> = LazyLock::new(|| {
    let (_, table) = REFERENCE.split_once(REFUSALS).expect("the table of refusals");
    let rows = table.lines().take_while(|line| line.starts_with('|'));
    let numbered = rows.map(|line| match line.split('|').map(str::trim).collect::<Vec<_>>()[..] {
        ["", number, _, reason, _, _, _, ""] => (number.parse::<u64>().expect(line), reason),
        _ => panic!("no row of six columns: {line}"),
    });
    let (numbers, reasons): (Vec<_>, Vec<_>) = numbered.unzip();
    assert!(numbers.into_iter().eq(1..=LAST_REFUSAL), "a row for each refusal, in their order");
    reasons
});

/// The sentence of a refusal by a client at a step. All three have one.
pub fn sentence(step: u64, client: u64, refusal: u64) -> String {
    format!("{} of client {client}: {}", STEPS[step as usize], REASONS[refusal as usize - 1])
}

/// Writes a sentence to the front of a text buffer of any length: its length, or the refusal's number.
pub fn write(step: u64, client: u64, refusal: u64, text: &mut [u8]) -> Checked<usize> {
    refuse_if(text.len() < TEXT_BYTES, 27)?;
    refuse_if(step >= STEPS.len() as u64 || refusal == 0 || refusal > LAST_REFUSAL || client > LAST_CLIENT, 28)?;
    let sentence = sentence(step, client, refusal);
    text[..sentence.len()].copy_from_slice(sentence.as_bytes());
    Ok(sentence.len())
}

/// The numbers that a sentence says.
#[derive(Clone, Copy, Debug, Default, PartialEq, Eq)]
pub struct Numbers {
    /// The step's number.
    pub step: u64,
    /// The client's number.
    pub client: u64,
    /// The refusal's number.
    pub refusal: u64,
}

/// Every sentence, with its numbers.
static SENTENCES: LazyLock<HashMap<Vec<u8>, Numbers>> = LazyLock::new(|| {
    let clients = |step| (0..=LAST_CLIENT).map(move |client| (step, client));
    (0..STEPS.len() as u64)
        .flat_map(clients)
        .flat_map(|(step, client)| (1..=LAST_REFUSAL).map(move |refusal| Numbers { step, client, refusal }))
        .map(|numbers| (sentence(numbers.step, numbers.client, numbers.refusal).into_bytes(), numbers))
        .collect()
});

/// The numbers of a text that is a sentence: it is looked up among all of them.
pub fn read(text: &[u8]) -> Option<Numbers> {
    SENTENCES.get(text).copied()
}
