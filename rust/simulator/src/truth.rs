//! The shared log as the model computes it from the rows: the judge compares answers and copies with it.

use crate::change::Change;
use cindrolf::Step;
use model::{Answer, layout, marks, plans, rights, words};

/// The log, its marks and its rights after some rows, by the model.
#[derive(Clone, Debug, PartialEq, Eq)]
pub struct Truth {
    clients: u64,
    state: Vec<u64>,
    entries: Vec<u64>,
    marks: Vec<u64>,
    rights: Vec<u64>,
}

impl Truth {
    /// A fresh log for so many clients, which have all rights, without marks.
    pub fn fresh(clients: u64) -> Truth {
        let (mut state, mut entries) = (vec![0; layout::STATE_WORDS], vec![0; layout::SMALL_ENTRY_WORDS]);
        assert_eq!(words::fresh(&mut state, &mut entries, clients), Answer::Done);
        let (marks, rights) = (vec![0; marks::MARK_WORDS], rights::all(clients));
        Truth { clients, state, entries, marks, rights }
    }

    /// The words of all four buffers: state, entries, marks and rights.
    pub fn words(&self) -> [&[u64]; 4] {
        [&self.state, &self.entries, &self.marks, &self.rights]
    }

    /// The chain reading.
    pub fn chain(&self) -> Vec<u64> {
        let mut output = vec![0; self.entries.len()];
        let count = words::read_chain(&self.state, &self.entries, &mut output).expect("a log and room for all of it");
        output.truncate(count);
        output
    }

    /// Takes a change, and says how the model answers.
    pub fn take(&mut self, change: Change) -> Answer {
        match change {
            Change::Step(client, step) => self.step(client, model_step(step)),
            Change::WriteScores(client, scores) => self.step(client, model::Step::WriteScores(scores)),
            Change::SetMark(name) => marks::set(&self.state, &self.entries, &mut self.marks, name.word()),
            Change::DropMark(name) => marks::drop(&self.state, &self.entries, &mut self.marks, name.word()),
            Change::SetRights(client, word) => self.set_rights(client, word),
        }
    }

    fn step(&mut self, client: u64, step: model::Step) -> Answer {
        words::step_with(&mut self.state, &mut self.entries, &self.rights, client, step)
    }

    fn set_rights(&mut self, client: u64, word: u64) -> Answer {
        if client >= rights::RIGHTS_WORDS as u64 {
            return Answer::Refused(3);
        }
        let mut new = self.rights.clone();
        new[client as usize] = word;
        if !rights::well_formed(&new, self.clients) {
            return Answer::Refused(2);
        }
        self.rights = new;
        Answer::Done
    }
}

fn model_step(step: Step) -> model::Step {
    plans::step(step.kind().number(), step.value()).expect("a number below ten")
}

/// Whether an answer is a refusal.
pub fn refused(answer: Answer) -> bool {
    matches!(answer, Answer::Refused(_))
}
