//! A fresh log and its history, in both halves of the model.

use model::layout::{ENTRY_WORDS, Entry, STATE_WORDS};
use model::source::{Source, Taken};
use model::{Answer, Step, words};

/// A log in the reference's words and in LedgerChaining's terms.
pub struct Log {
    state: Vec<u64>,
    entries: Vec<u64>,
    source: Source,
}

impl Log {
    /// An empty log for 1 to 16 clients.
    pub fn fresh(client_count: u64) -> Self {
        let (mut state, mut entries) = (vec![0; STATE_WORDS], vec![0; ENTRY_WORDS]);
        assert_eq!(words::fresh(&mut state, &mut entries, client_count), Answer::Done);
        Log { state, entries, source: Source::init(client_count) }
    }

    /// The log in LedgerChaining's terms.
    pub fn source(&self) -> &Source {
        &self.source
    }

    /// Takes a step. The answer is the reference's; that LedgerChaining takes the step exactly when the reference does is tested.
    pub fn step(&mut self, client: u64, step: Step) -> Answer {
        let answer = words::step(&mut self.state, &mut self.entries, client, step);
        let agree = match self.source.step(client, step) {
            Taken::Accepted(expected) => answer == expected,
            Taken::Limit(number) => answer == Answer::Refused(number),
            Taken::Forbidden => matches!(answer, Answer::Refused(number) if self.source.forbids_by(client, number)),
        };
        assert!(agree, "the words and LedgerChaining part at {step:?} by client {client}: the words give {answer:?}");
        answer
    }

    /// The entries along the list: client and value of each.
    pub fn chain(&self) -> Vec<(u64, u64)> {
        let mut output = vec![0; ENTRY_WORDS];
        let count = words::read_chain(&self.state, &self.entries, &mut output).expect("a fresh log's reading has room");
        output[..count].iter().map(|&word| Entry::load(word)).map(|entry| (entry.client, entry.value)).collect()
    }

    /// The values of a ledger's entries in their order, if it is listed.
    pub fn ledger_values(&self, ledger: u64) -> Option<Vec<u64>> {
        let part = words::read_ledger(&self.state, &self.entries, ledger).ok()?;
        Some(self.entries[part].iter().map(|&word| Entry::load(word).value).collect())
    }
}
