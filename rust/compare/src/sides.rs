//! The two sides of a comparison, which hold equal buffers between calls.

use crate::call::{Buffers, Call, Lent, Outcome, Subject, model};
use crate::tally::Tally;
use std::fmt;

/// Words on either side of each buffer that the subject is lent. The number is odd, so that a lent buffer begins where
/// no allocation does.
const AROUND: usize = 17;

/// What the words around a buffer hold: never zero, and no two the same.
fn guard(index: usize) -> u64 {
    0xA5C3_0000_5A3C_0000 ^ index as u64
}

/// A buffer of which the middle is lent. Nothing around it may change.
#[derive(Default)]
struct Guarded(Vec<u64>);

impl Guarded {
    fn set(&mut self, words: &[u64]) {
        self.0.clear();
        self.0.extend((0..AROUND).map(guard));
        self.0.extend(words);
        self.0.extend((AROUND + words.len()..2 * AROUND + words.len()).map(guard));
    }

    fn middle(&mut self) -> &mut [u64] {
        let end = self.0.len() - AROUND;
        &mut self.0[AROUND..end]
    }

    /// Whether the middle is these words and nothing around it has changed.
    fn is(&self, words: &[u64]) -> bool {
        let (before, rest) = self.0.split_at(AROUND);
        let (middle, after) = rest.split_at(rest.len() - AROUND);
        let kept = |words: &[u64], first: usize| words.iter().zip(first..).all(|(&word, index)| word == guard(index));
        middle == words && kept(before, 0) && kept(after, AROUND + middle.len())
    }

    /// The words that differ from these, and those around them that have changed: index, word, what it should be.
    fn different(&self, words: &[u64]) -> impl Iterator<Item = (i64, u64, u64)> {
        let inside = AROUND..self.0.len() - AROUND;
        let expected = move |index: usize| if inside.contains(&index) { words[index - AROUND] } else { guard(index) };
        let all = self.0.iter().enumerate().map(move |(index, &word)| {
            let place = index as i64 - AROUND as i64;
            (place, word, expected(index))
        });
        all.filter(|(_, word, expected)| word != expected)
    }
}

/// The subject's buffers and the model's.
pub struct Sides {
    subject: Subject,
    state: Guarded,
    entries: Guarded,
    marks: Guarded,
    rights: Guarded,
    plan: Guarded,
    output: Guarded,
    model: Buffers,
    /// What was compared so far.
    pub tally: Tally,
}

/// Where the two sides part.
#[derive(Clone, Debug)]
pub struct Difference {
    /// The call after which they do.
    pub call: Call,
    /// What the subject gave.
    pub subject: Outcome,
    /// What the model gave.
    pub model: Outcome,
    /// Words that differ: buffer, index, the subject's word, the model's. An index below 0 or past the buffer's end is
    /// of a word that wasn't lent.
    pub words: Vec<(&'static str, i64, u64, u64)>,
}

impl Sides {
    /// Both sides on empty buffers.
    pub fn new(subject: Subject) -> Self {
        let (state, entries, marks, rights, plan, output) = Default::default();
        let (model, tally) = Default::default();
        let mut sides = Sides { subject, state, entries, marks, rights, plan, output, model, tally };
        sides.set(&Buffers::default());
        sides
    }

    /// Gives both sides these buffers.
    pub fn set(&mut self, buffers: &Buffers) {
        self.state.set(&buffers.state);
        self.entries.set(&buffers.entries);
        self.marks.set(&buffers.marks);
        self.rights.set(&buffers.rights);
        self.plan.set(&buffers.plan);
        self.output.set(&buffers.output);
        self.model.clone_from(buffers);
    }

    fn lend(&mut self) -> Lent<'_> {
        let Sides { state, entries, marks, rights, plan, output, .. } = self;
        Lent {
            state: state.middle(),
            entries: entries.middle(),
            marks: marks.middle(),
            rights: rights.middle(),
            plan: plan.middle(),
            output: output.middle(),
        }
    }

    /// Gives both sides these rights, and leaves the other buffers as they are.
    pub fn set_rights(&mut self, rights: &[u64]) {
        self.rights.set(rights);
        self.model.rights.clear();
        self.model.rights.extend(rights);
    }

    /// Gives both sides this plan, and leaves the other buffers as they are.
    pub fn set_plan(&mut self, plan: &[u64]) {
        self.plan.set(plan);
        self.model.plan.clear();
        self.model.plan.extend(plan);
    }

    /// Changes both sides' buffers in the same way.
    pub fn edit(&mut self, edit: impl Fn(&mut Lent)) {
        edit(&mut self.lend());
        edit(&mut self.model.lend());
    }

    /// The buffers, which are equal.
    pub fn buffers(&self) -> &Buffers {
        &self.model
    }

    /// Takes a call on both sides, and compares what they gave and every word.
    pub fn call(&mut self, call: Call) -> Result<Outcome, Box<Difference>> {
        let subject = (self.subject)(call, &mut self.lend());
        let model = model(call, &mut self.model.lend());
        let Buffers { state, entries, marks, rights, plan, output } = &self.model;
        let log_is = self.state.is(state) && self.entries.is(entries);
        let read_are = self.rights.is(rights) && self.plan.is(plan);
        let others_are = self.marks.is(marks) && self.output.is(output);
        if subject == model && log_is && read_are && others_are {
            self.tally.count(call, &model);
            return Ok(model);
        }
        Err(Box::new(Difference { call, subject, model, words: self.different_words() }))
    }

    fn different_words(&self) -> Vec<(&'static str, i64, u64, u64)> {
        let pairs = [
            ("state", &self.state, &self.model.state),
            ("entries", &self.entries, &self.model.entries),
            ("marks", &self.marks, &self.model.marks),
            ("rights", &self.rights, &self.model.rights),
            ("plan", &self.plan, &self.model.plan),
            ("output", &self.output, &self.model.output),
        ];
        let mut words = vec![];
        for (name, subject, model) in pairs {
            words.extend(subject.different(model).map(|(index, word, expected)| (name, index, word, expected)));
        }
        words
    }
}

impl fmt::Display for Difference {
    fn fmt(&self, f: &mut fmt::Formatter<'_>) -> fmt::Result {
        writeln!(f, "{}: the library gives {:?}, the model {:?}", self.call, self.subject, self.model)?;
        for (name, index, left, right) in self.words.iter().take(20) {
            writeln!(f, "  {name} word {index}: the library's {left:#018x}, the model's {right:#018x}")?;
        }
        match self.words.len().saturating_sub(20) {
            0 => Ok(()),
            more => writeln!(f, "  and {more} words more"),
        }
    }
}

#[cfg(test)]
mod tests {
    use super::*;

    // No safe subject reaches the words around its buffers, so they are changed for it here.
    #[test]
    fn finds_changes_around_the_buffers() {
        let (state, marks, rights) = (vec![1; 3], vec![4; 2], vec![6; 16]);
        let buffers = Buffers { state, entries: vec![], marks, rights, plan: vec![8; 4], output: vec![2; 5] };
        let changed = |change: fn(&mut Sides)| {
            let mut sides = Sides::new(model);
            sides.set(&buffers);
            change(&mut sides);
            let difference = sides.call(Call::ReadChain).expect_err("a word has changed");
            difference.words.iter().map(|&(name, index, ..)| (name, index)).collect::<Vec<_>>()
        };
        assert_eq!(changed(|sides| sides.state.0[AROUND - 1] = 0), [("state", -1)]);
        assert_eq!(changed(|sides| sides.state.0[AROUND + 3] = 0), [("state", 3)]);
        assert_eq!(changed(|sides| sides.entries.0[0] = 0), [("entries", -17)]);
        assert_eq!(changed(|sides| sides.marks.0[AROUND + 2] = 0), [("marks", 2)]);
        assert_eq!(changed(|sides| sides.marks.0[AROUND] = 0), [("marks", 0)]);
        assert_eq!(changed(|sides| sides.rights.0[AROUND + 16] = 0), [("rights", 16)]);
        assert_eq!(changed(|sides| sides.rights.0[AROUND + 15] = 0), [("rights", 15)]);
        assert_eq!(changed(|sides| sides.plan.0[AROUND + 4] = 0), [("plan", 4)]);
        assert_eq!(changed(|sides| sides.plan.0[AROUND] = 0), [("plan", 0)]);
        assert_eq!(changed(|sides| *sides.output.0.last_mut().unwrap() = 0), [("output", 21)]);
        assert_eq!(changed(|sides| sides.output.0[AROUND] = 0), [("output", 0)]);
    }
}
