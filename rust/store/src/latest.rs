//! The log at the last look, to read.

use crate::replica::Replica;
use crate::{Error, LastRow};
use cindrolf::{
    Forecast, LedgerNumber, LedgerSum, ListPlace, LogRef, MarkName, Refusal, Rights, RunTotal, StepWord, View,
    client_of,
};

/// The log at the last look: its words, marks and rights.
#[derive(Clone, Copy)]
pub struct Latest<'a>(&'a Replica);

impl<'a> Latest<'a> {
    pub(crate) fn new(copy: &'a Replica) -> Self {
        Latest(copy)
    }

    /// The log, with all its readers: a ledger, the chain, the first window over a limit, the adviser.
    pub fn log(self) -> LogRef<'a> {
        self.0.log()
    }

    /// What the log holds, field by field.
    pub fn view(self) -> Result<View<'a>, Error> {
        Ok(self.log().view()?)
    }

    /// How many rows the journal has: one for each step of each request, marks and rights among them.
    pub fn rows(self) -> i64 {
        self.0.known.rows
    }

    /// The last of them: keep it, so that [`Store::has_row`](crate::Store::has_row) can find a lost tail.
    pub fn last_row(self) -> LastRow {
        LastRow::of(self.0.known)
    }

    /// The chain reading: each entry with its client and its value, without its ledger.
    pub fn chain(self) -> Result<Vec<u64>, Error> {
        let mut output = vec![0; self.log().entries().len()];
        let count = self.log().read_chain(&mut output)?;
        output.truncate(count);
        Ok(output)
    }

    /// How many writes of a client are stored. A caller that counts its own writes knows after a crash whether the last
    /// one is stored.
    pub fn writes_of(self, client: u64) -> Result<usize, Error> {
        Ok(self.chain()?.into_iter().filter(|&word| client_of(word) == client).count())
    }

    /// The listed ledgers in their order, each with how many entries it has and the sum of their values.
    pub fn sums(self) -> Result<Vec<(LedgerNumber, LedgerSum)>, Error> {
        let (log, mut sums) = (self.log(), Vec::new());
        for place in 1.. {
            match log.ledger_at(ListPlace(place)) {
                Ok(ledger) => sums.push((ledger, log.ledger_sum(ledger)?)),
                Err(cindrolf::Error::Refused(Refusal::NotListed)) => break,
                Err(error) => return Err(error.into()),
            }
        }
        Ok(sums)
    }

    /// The run total: the sum of all values along the chain, exact and rounded once.
    pub fn total(self) -> Result<RunTotal, Error> {
        Ok(self.log().run_total()?)
    }

    /// The marks buffer, to read with [`LogRef::read_mark`].
    pub fn marks(self) -> &'a [u64] {
        &self.0.marks
    }

    /// The marks that are kept, each with the entry count when it was set.
    pub fn mark_list(self) -> impl Iterator<Item = (MarkName, u64)> + use<'a> {
        let pairs = self.0.marks.as_chunks::<2>().0.iter();
        // The count is the 13 most significant bits of the second word.
        pairs.filter(|pair| pair[0] != 0).map(|&[name, count]| (MarkName::from_word(name), count >> 51))
    }

    /// The chain reading as it was when the mark of this name was set.
    pub fn read_mark(self, name: MarkName) -> Result<Vec<u64>, Error> {
        let mut output = vec![0; self.log().entries().len()];
        let count = self.log().read_mark(self.marks(), name, &mut output)?;
        output.truncate(count);
        Ok(output)
    }

    /// The rights under which every step is taken.
    pub fn rights(self) -> &'a Rights {
        &self.0.rights
    }

    /// What a run of this plan would add now.
    pub fn forecast(self, plan: &[StepWord], budget: u64) -> Forecast {
        self.log().forecast(self.rights(), plan, budget)
    }
}
