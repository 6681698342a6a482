//! A controller's own copy of the shared log, which the proved library computes from the rows.

use crate::change::Change;
use cindrolf::{Answer, Capacity, Error, Log, MARK_WORDS, Refusal, Rights};
use model::Answer as Told;

/// The log, its marks and its rights after some rows.
#[derive(Clone, Debug, PartialEq, Eq)]
pub struct Replica {
    log: Log,
    marks: [u64; MARK_WORDS],
    rights: Rights,
}

impl Replica {
    /// A fresh log for so many clients, which have all rights, without marks.
    pub fn fresh(clients: u64) -> Replica {
        let log = Log::fresh_with(clients, Capacity::Small).expect("1 to 16 clients");
        Replica { log, marks: [0; MARK_WORDS], rights: Rights::all(clients).expect("1 to 16 clients") }
    }

    /// The log.
    pub fn log(&self) -> &Log {
        &self.log
    }

    /// The words of all four buffers: state, entries, marks and rights.
    pub fn words(&self) -> [&[u64]; 4] {
        [self.log.state(), self.log.entries(), &self.marks, self.rights.words()]
    }

    /// Takes a change, and says how the library answers.
    pub fn take(&mut self, change: Change) -> Told {
        let answer = match change {
            Change::Step(client, step) => self.log.under(&self.rights).take(client, step),
            Change::WriteScores(client, scores) => {
                self.log.under(&self.rights).write_scores(client, scores).map(Answer::Stored)
            }
            Change::SetMark(name) => self.log.set_mark(&mut self.marks, name).map(Answer::from),
            Change::DropMark(name) => self.log.drop_mark(&mut self.marks, name).map(Answer::from),
            Change::SetRights(client, word) => self.set_rights(client, word).map(Answer::from),
        };
        match answer {
            Ok(Answer::Done) => Told::Done,
            Ok(Answer::WasClosed) => Told::WasClosed,
            Ok(Answer::Behind) => Told::Behind,
            Ok(Answer::Stored(at)) => Told::Entry { number: at.number.0, place: at.place.0 },
            Err(Error::Refused(refusal)) => Told::Refused(refusal.number()),
            Err(error) => panic!("the library of this version gave no answer: {error}"),
        }
    }

    /// Takes the changes of a request one after the other, and says how each is answered.
    pub fn take_all(&mut self, changes: &[Change]) -> Vec<Told> {
        changes.iter().map(|&change| self.take(change)).collect()
    }

    fn set_rights(&mut self, client: u64, word: u64) -> Result<(), Error> {
        let mut words = *self.rights.words();
        let place = usize::try_from(client).ok().and_then(|client| words.get_mut(client));
        *place.ok_or(Refusal::UnknownClient)? = word;
        let rights = Rights::from_words(words);
        // No log has this client: the step is refused by 3 where the rights are well formed, and else before that.
        match self.log.under(&rights).name(u64::MAX) {
            Err(Error::Refused(Refusal::UnknownClient)) => {
                self.rights = rights;
                Ok(())
            }
            refused => refused,
        }
    }
}
