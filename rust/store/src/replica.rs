//! The process's own copy of a log, which the proved library computes from its rows, starting from the fresh log.
//!
//! If a copy lacks many rows, the library runs their steps as a plan: it checks the buffers once for all of them, and a
//! row costs some 8 ns instead of a microsecond. A plan does not return the answer to each step. So accepted writes in
//! a row are a plan: what their rows say is compared with the entries that it has made, and if these differ, the steps
//! are taken once more, one by one. Other steps are taken one by one, with each answer compared, and so are the
//! process's own request and every row of a check. Only if a very long stretch of steps is missing, all of it is one
//! plan, of which the entries are compared.
//!
//! The process's own request is taken before its rows are stored, and taken back. The result is kept: if its rows come
//! straight after those of the copy, the result is the new copy, and nothing is taken a second time.
//!
//! A row that the library refuses at its place changes nothing, and is no damage. A stored answer that is not the
//! library's is reported, and stops no process: one wrong process would end the log for all, since no row can be taken
//! back.

use crate::request::{Change, Known, Told, number_of, reply};
use crate::{CLIENT_ROW_LIMIT, Error, OTHER_ROW_LIMIT};
use cindrolf::{
    Answer, CLIENT_LIMIT, Capacity, Log, LogMut, LogRef, MARK_WORDS, Refusal, Rights, StepWord, client_of, value_of,
};

/// A row as an engine gives it.
pub(crate) struct Row {
    /// The id of its request.
    pub id: u64,
    /// Which step of the request it is, from 0.
    pub index: u64,
    pub change: Change,
    /// The rows up to this one.
    pub known: Known,
    /// The answer that is stored with it, and the value of a write of scores.
    pub told: Option<Stamp>,
}

/// What is stored of a row's answer: its number, and the value that a write of scores has stored.
#[derive(Clone, Copy, Debug, PartialEq, Eq)]
pub(crate) struct Stamp {
    pub answer: u64,
    pub value: Option<u64>,
}

impl Stamp {
    /// Whether the answer is the place of an entry.
    fn is_entry(self) -> bool {
        self.answer >> 32 == 1
    }
}

/// A stored answer that is not what the log gives.
#[derive(Clone, Debug, PartialEq, Eq)]
pub(crate) struct Wrong {
    pub row: i64,
    pub stored: String,
    pub replayed: String,
}

/// What steps had made of a copy before they were taken back.
#[derive(Clone, Debug)]
pub(crate) struct Tried {
    /// The rows that the copy was made of.
    known: Known,
    state: Vec<u64>,
    /// The entries that they had added.
    added: Vec<u64>,
    marks: [u64; MARK_WORDS],
    rights: Rights,
    /// How each step was answered, and what is stored of that.
    pub told: Vec<Told>,
    pub stamps: Vec<Stamp>,
}

/// How many writes in a row are taken as a plan, and not singly.
const PLAN_FROM: usize = 4;

/// How many steps are taken as one plan, whatever they are: singly they would take 10 ms and more.
const LONG_PLAN_FROM: usize = 10_000;

/// The words of a log, its marks and its rights, as its rows leave them.
#[derive(Clone, Debug, PartialEq, Eq)]
pub(crate) struct Replica {
    state: Vec<u64>,
    entries: Vec<u64>,
    pub marks: [u64; MARK_WORDS],
    pub rights: Rights,
    pub known: Known,
    /// How many rows each client has, and after these how many there are of marks and rights.
    counts: [u32; CLIENT_LIMIT as usize + 1],
    /// The highest start number in an id.
    pub last_start: u32,
}

impl Replica {
    /// A fresh log, without marks, in which each client has every right.
    pub fn fresh(client_count: u64, capacity: Capacity) -> Result<Self, cindrolf::Error> {
        let log = Log::fresh_with(client_count, capacity)?;
        Ok(Replica {
            state: log.state().to_vec(),
            entries: log.entries().to_vec(),
            marks: [0; MARK_WORDS],
            rights: Rights::all(client_count)?,
            known: Known::fresh(client_count, capacity),
            counts: [0; CLIENT_LIMIT as usize + 1],
            last_start: 0,
        })
    }

    pub fn log(&self) -> LogRef<'_> {
        LogRef::new(&self.state, &self.entries)
    }

    /// Takes a step, and says how it is answered.
    pub fn take(&mut self, change: &Change) -> Result<Told, Error> {
        let mut log = LogMut::new(&mut self.state, &mut self.entries);
        let answer = match change {
            Change::Step(client, step) => log.under(&self.rights).take(*client, *step),
            Change::WriteScores(client, scores) => {
                log.under(&self.rights).write_scores(*client, scores).map(Answer::from)
            }
            Change::SetMark(name) => log.as_ref().set_mark(&mut self.marks, *name).map(Answer::from),
            Change::DropMark(name) => log.as_ref().drop_mark(&mut self.marks, *name).map(Answer::from),
            &Change::SetRights(client, word) => self.set_rights(client, word).map(Answer::from),
        };
        match answer {
            Ok(answer) => Ok(Ok(answer)),
            Err(cindrolf::Error::Refused(refusal)) => Ok(Err(refusal)),
            Err(error) => Err(Error::Library(error)),
        }
    }

    /// Gives a client other rights from now on. Those that are not of this log are refused by 2, as a step under them
    /// would be.
    fn set_rights(&mut self, client: u64, word: u64) -> Result<(), cindrolf::Error> {
        let mut words = *self.rights.words();
        let place = usize::try_from(client).ok().and_then(|client| words.get_mut(client));
        *place.ok_or(Refusal::UnknownClient)? = word;
        let rights = Rights::from_words(words);
        self.fits(&rights)?;
        self.rights = rights;
        Ok(())
    }

    /// Whether these rights are well formed for this log.
    pub fn fits(&self, rights: &Rights) -> Result<(), cindrolf::Error> {
        // No log has this client: the step is refused by 3 where the rights are well formed, and else before that.
        let (mut state, mut entries) = (self.state.clone(), self.entries.clone());
        match LogMut::new(&mut state, &mut entries).under(rights).name(u64::MAX) {
            Err(cindrolf::Error::Refused(Refusal::UnknownClient)) => Ok(()),
            refused => refused,
        }
    }

    /// What is stored of an answer, straight after the step was taken.
    pub fn stamp(&self, change: &Change, told: Told) -> Stamp {
        let value = match (change, told) {
            (Change::WriteScores(..), Ok(Answer::Stored(at))) => Some(value_of(self.entries[at.number.0 as usize])),
            _ => None,
        };
        Stamp { answer: number_of(told), value }
    }

    /// Takes steps one after the other, takes them back, and gives what they had come to.
    pub fn attempt<'a>(&mut self, changes: impl Iterator<Item = &'a Change>) -> Result<Tried, Error> {
        let (state, marks, rights) = (self.state.clone(), self.marks, self.rights);
        let first = self.entry_count();
        let taken: Result<Vec<_>, Error> = changes
            .map(|change| {
                let told = self.take(change)?;
                Ok((told, self.stamp(change, told)))
            })
            .collect();
        // A step changes no entry but the one that it adds, and a word that holds none is zero.
        let used = first..self.entry_count();
        let added = self.entries[used.clone()].to_vec();
        self.entries[used].fill(0);
        let state = std::mem::replace(&mut self.state, state);
        let (marks, rights) = (std::mem::replace(&mut self.marks, marks), std::mem::replace(&mut self.rights, rights));
        let (told, stamps) = taken?.into_iter().unzip();
        Ok(Tried { known: self.known, state, added, marks, rights, told, stamps })
    }

    /// Takes steps for good that were tried on this copy, if it is still made of the same rows, and says whether it is.
    pub fn adopt(&mut self, tried: &mut Tried) -> bool {
        if tried.known != self.known {
            return false;
        }
        std::mem::swap(&mut self.state, &mut tried.state);
        let first = self.entry_count();
        self.entries[first..][..tried.added.len()].copy_from_slice(&tried.added);
        (self.marks, self.rights) = (tried.marks, tried.rights);
        true
    }

    /// The rows of a request whose steps were taken are known.
    pub fn count(&mut self, id: u64, index: u64, change: &Change) {
        self.count_as(self.known.and(id, index, change), id, change);
    }

    /// The same, where it was said before which rows are known then.
    pub fn count_as(&mut self, known: Known, id: u64, change: &Change) {
        self.known = known;
        self.note(id, change);
    }

    fn note(&mut self, id: u64, change: &Change) {
        self.counts[slot(change)] += 1;
        self.last_start = self.last_start.max((id >> 32) as u32);
    }

    /// Whether there is room for the rows of a request. No client takes that of the others.
    pub fn room<'a>(&self, changes: impl Iterator<Item = &'a Change>) -> Result<(), Error> {
        let mut counts = self.counts;
        for change in changes {
            let slot = slot(change);
            counts[slot] += 1;
            let (limit, client) = match slot as u64 {
                CLIENT_LIMIT => (OTHER_ROW_LIMIT, None),
                client => (CLIENT_ROW_LIMIT, Some(client)),
            };
            if counts[slot] > limit {
                return Err(Error::JournalFull(client));
            }
        }
        Ok(())
    }

    /// The library keeps the buffers well formed: the word of an entry has the number of its ledger, which is not 0, and
    /// each word behind the last entry is 0. To ask the library would be to check all words once more.
    fn entry_count(&self) -> usize {
        self.entries.partition_point(|&word| word != 0)
    }
}

/// Where the rows of a step are counted. Only a step of a client of some log is its own.
fn slot(change: &Change) -> usize {
    match change {
        Change::Step(client, _) | Change::WriteScores(client, _) => CLIENT_LIMIT.min(*client) as usize,
        Change::SetMark(_) | Change::DropMark(_) | Change::SetRights(..) => CLIENT_LIMIT as usize,
    }
}

/// Has a copy follow rows, one after the other.
pub(crate) struct Follower<'a> {
    replica: &'a mut Replica,
    /// Whether steps are gathered, and run as plans.
    gathers: bool,
    words: Vec<StepWord>,
    stamps: Vec<Option<Stamp>>,
    /// The stored answers that are not those of the log.
    wrong: Vec<Wrong>,
}

impl<'a> Follower<'a> {
    pub fn new(replica: &'a mut Replica) -> Self {
        Follower { replica, gathers: true, words: Vec::new(), stamps: Vec::new(), wrong: Vec::new() }
    }

    /// One that takes every row singly, so that every answer is compared.
    pub fn one_by_one(replica: &'a mut Replica) -> Self {
        Follower { gathers: false, ..Follower::new(replica) }
    }

    /// The rows that are known, those that are gathered among them.
    pub fn known(&self) -> Known {
        self.replica.known
    }

    /// Goes on by a row, which has to be the next one.
    pub fn row(&mut self, row: Row) -> Result<(), Error> {
        let next = self.replica.known.and(row.id, row.index, &row.change);
        if row.known.rows != next.rows {
            return Err(Error::Damaged(format!("row {} of its journal is missing", next.rows)));
        }
        if next.rows > crate::ROW_LIMIT {
            return Err(Error::Damaged(format!("its journal has more than {} rows", crate::ROW_LIMIT)));
        }
        if row.known.chain != next.chain {
            return Err(Error::Damaged(format!("row {} of its journal was changed", next.rows)));
        }
        match row.change.word().filter(|_| self.gathers) {
            Some(word) => {
                self.words.push(word);
                self.stamps.push(row.told);
            }
            None => {
                self.flush()?;
                self.single(next.rows, &row.change, row.told)?;
            }
        }
        self.replica.known = next;
        self.replica.note(row.id, &row.change);
        Ok(())
    }

    /// Takes what is gathered, and gives the stored answers that are wrong.
    pub fn finish(mut self) -> Result<Vec<Wrong>, Error> {
        self.flush()?;
        Ok(self.wrong)
    }

    fn flush(&mut self) -> Result<(), Error> {
        let (words, stamps) = (std::mem::take(&mut self.words), std::mem::take(&mut self.stamps));
        if words.len() >= LONG_PLAN_FROM && self.run(&words, &stamps) {
            return Ok(());
        }
        let (first, mut at) = (self.replica.known.rows + 1 - words.len() as i64, 0);
        while at < words.len() {
            // Of a write that was accepted, and of a server's row, which has no answer, the entries tell all.
            let entries = stamps[at..].iter().take_while(|stamp| stamp.is_none_or(Stamp::is_entry)).count();
            let part = at..at + entries.max(1);
            at = part.end;
            if entries >= PLAN_FROM && self.run(&words[part.clone()], &stamps[part.clone()]) {
                continue;
            }
            for place in part {
                let step = words[place].step().expect("a word that was made of a step");
                let change = Change::Step(words[place].client(), step);
                self.single(first + place as i64, &change, stamps[place])?;
            }
        }
        Ok(())
    }

    /// Runs a plan, and says whether it came to the entries that the rows tell of. If not, nothing has changed.
    fn run(&mut self, plan: &[StepWord], stamps: &[Option<Stamp>]) -> bool {
        let (before, first) = (self.replica.state.clone(), self.replica.entry_count());
        let Replica { state, entries, rights, .. } = &mut *self.replica;
        LogMut::new(state, entries).run_plan(rights, plan, plan.len() as u64);
        // A server's rows have no answers.
        let agrees = stamps.iter().all(Option::is_none) || self.agrees(first, plan, stamps);
        if !agrees {
            self.replica.state = before;
            // A step changes no entry but the one that it adds.
            self.replica.entries[first..].fill(0);
        }
        agrees
    }

    /// Whether the entries from the first new one on are those that the rows tell of, each with its place.
    fn agrees(&self, first: usize, plan: &[StepWord], stamps: &[Option<Stamp>]) -> bool {
        let entries = &self.replica.entries;
        // Few ledgers have new entries, mostly one: so the earlier entries are counted for these only.
        let mut places = [None; 256];
        let earlier = |ledger| entries[..first].iter().filter(|&&entry| entry >> 56 == ledger).count() as u64;
        let mut next = first;
        for (word, stamp) in plan.iter().zip(stamps) {
            let Some(stamp) = stamp else { return false };
            if !stamp.is_entry() {
                continue;
            }
            let Some(&entry) = entries.get(next) else { return false };
            let place = places[(entry >> 56) as usize].get_or_insert_with(|| earlier(entry >> 56));
            let same = client_of(entry) == word.client() && value_of(entry) == value_of(word.0);
            if !same || stamp.answer != (1 << 32) + ((next as u64) << 16) + *place {
                return false;
            }
            (*place, next) = (*place + 1, next + 1);
        }
        next == self.replica.entry_count()
    }

    /// Takes a row's step, and compares its answer.
    fn single(&mut self, row: i64, change: &Change, stored: Option<Stamp>) -> Result<(), Error> {
        let told = self.replica.take(change)?;
        let given = self.replica.stamp(change, told);
        if let Some(stored) = stored.filter(|&stored| stored != given) {
            self.wrong.push(Wrong { row, stored: text(stored), replayed: text(given) });
        }
        Ok(())
    }
}

fn text(stamp: Stamp) -> String {
    match stamp.value {
        Some(value) => format!("{} value {value}", reply(stamp.answer)),
        None => reply(stamp.answer),
    }
}
