//! A log that processes share: opened, read and changed, each change one request.

use crate::address::Address;
use crate::check::{Checked, WrongAnswer};
use crate::driver::Wish;
use crate::file::PRIVATE;
use crate::file::processes::Stepper;
use crate::file::store::FileStore;
use crate::file::upgrade::write_new;
use crate::journal::{EachRow, FIRST_ROW, JournalRow};
use crate::kept::Kept;
use crate::latest::Latest;
use crate::request::{Asked, Change, Told};
use crate::server::import::import;
use crate::server::store::ServerStore;
use crate::witness::Witness;
use crate::{Error, LastRow, NOTE_LIMIT, PROCESS_LIMIT};
use cindrolf::{Answer, Capacity, MarkName, Position, Refusal, Right, Rights, Step, StepWord};
use std::fmt;
use std::path::Path;
use std::thread::sleep;
use std::time::{Duration, Instant};

/// How long a call waits for another process, or for the server, by default.
pub const PATIENCE: Duration = Duration::from_secs(10);

/// How long [`Store::changed`] puts off its second look, and at most a later one.
const SHORTEST_PAUSE: Duration = Duration::from_millis(1);
const LONGEST_PAUSE: Duration = Duration::from_millis(10);

/// A run log in a file or on a server, which other processes may use at the same time.
///
/// As a path, `postgresql://HOST/DATABASE/LOG` is a log on a server, and anything else is a file.
///
/// Each call that changes the log is one request, and returns its answer only when the request is on the disk. A
/// refusal stores nothing. See the [crate](crate) for an example.
pub struct Store {
    kept: Box<dyn Kept>,
    pub(crate) witness: Option<Witness>,
}

impl Store {
    /// Makes a fresh log for 1 to 16 clients, of which client 0 is the named leader. An existing log is not changed,
    /// except a file whose creation was not finished.
    pub fn create(path: impl AsRef<Path>, client_count: u64, capacity: Capacity) -> Result<Store, Error> {
        match Address::parse(path.as_ref())? {
            Address::File(path) => FileStore::create(&path, client_count, capacity).map(Store::of),
            Address::Server(address) => ServerStore::create(address, client_count, capacity).map(Store::of),
        }
    }

    /// Opens a log, and checks that it is consistent. If another process is about to create its file, this waits for
    /// that. It also opens a file of an earlier version, to read.
    pub fn open(path: impl AsRef<Path>) -> Result<Store, Error> {
        match Address::parse(path.as_ref())? {
            Address::File(path) => FileStore::open(&path).map(Store::of),
            Address::Server(address) => ServerStore::open(address).map(Store::of),
        }
    }

    /// Opens a log only to read: each step fails with [`Error::ReadOnly`]. It changes no byte of a file. A file in use
    /// has two others beside it, which this may have to make; it leaves them to the next process that opens the log to
    /// change it.
    pub fn open_read_only(path: impl AsRef<Path>) -> Result<Store, Error> {
        match Address::parse(path.as_ref())? {
            Address::File(path) => FileStore::open_read_only(&path).map(Store::of),
            Address::Server(address) => ServerStore::open_read_only(address).map(Store::of),
        }
    }

    fn of(kept: impl Kept + 'static) -> Store {
        Store { kept: Box::new(kept), witness: None }
    }

    /// How long a call waits for another process, or for the server, before it fails, from the next call on.
    pub fn set_patience(&mut self, patience: Duration) {
        self.kept.set_patience(patience);
    }

    /// The name with which rows are stored from now on, in place of the host, the program and the number of this
    /// process. It is for people, and has up to [`PROCESS_LIMIT`] bytes.
    pub fn set_process_name(&mut self, name: &str) -> Result<(), Error> {
        if name.len() > PROCESS_LIMIT {
            return Err(Error::TooLong { what: "the name of a process", limit: PROCESS_LIMIT });
        }
        self.kept.set_process_name(name);
        Ok(())
    }

    /// The file, or the address of the log.
    pub fn path(&self) -> &Path {
        self.kept.path()
    }

    /// The log as it is now, to read. It waits for no writer, and no writer waits for it.
    pub fn latest(&mut self) -> Result<Latest<'_>, Error> {
        self.kept.latest().map(Latest::new)
    }

    /// The last row that this store has read or stored, without reading the log: after an answer the row of that
    /// answer, and after a refusal the row at which it was decided. None after an error.
    pub fn last_row(&self) -> Option<LastRow> {
        self.kept.known().map(LastRow::of)
    }

    /// The stored answers, in rows that this store has followed, that differ from the log's: a wrong process stored
    /// them. They change only what SQL shows; [`check`](Store::check) finds every one of them.
    pub fn wrong_answers(&self) -> &[WrongAnswer] {
        self.kept.wrong_answers()
    }

    /// Checks the whole log: of a file, what SQLite checks and the tables and views as they were made; and every row,
    /// which the library takes once more from the fresh log. It waits for no writer, and none waits for it.
    pub fn check(&mut self) -> Result<Checked, Error> {
        self.kept.check()
    }

    /// Gives each row of the log, from the first on. It does not compare the stored answers: [`check`](Store::check)
    /// does.
    pub fn each_row(&mut self, mut each: impl FnMut(JournalRow<'_>) -> Result<(), Error>) -> Result<(), Error> {
        self.each_stored(&mut |row| each(row.shown()))
    }

    /// Gives each row with everything that is stored with it.
    pub(crate) fn each_stored(&mut self, each: &mut EachRow<'_>) -> Result<(), Error> {
        self.each_stored_from(FIRST_ROW, each)
    }

    pub(crate) fn each_stored_from(&mut self, first: i64, each: &mut EachRow<'_>) -> Result<(), Error> {
        self.kept.each_row(first, each)
    }

    /// The processes that step for each client, for so many clients.
    pub fn steppers(&mut self, clients: usize) -> Result<Vec<Stepper>, Error> {
        self.kept.steppers(clients)
    }

    /// Checks that the log still has this row, and so every row up to it. A shorter log, or another one, is damaged.
    ///
    /// A log whose last rows are gone is consistent. Only a caller that has kept the last row finds that: after each
    /// answer, keep [`last_row`](Store::last_row).
    pub fn has_row(&mut self, row: LastRow) -> Result<(), Error> {
        // Opening and looking see that the chain values go on from each other up to here.
        let rows = self.latest()?.rows();
        if rows < row.number {
            let why = format!("it ends at row {rows}, and the rows up to {} are missing", row.number);
            return Err(Error::Damaged(why));
        }
        if self.row(row.number)? == Some(row) {
            return Ok(());
        }
        let number = row.number;
        Err(Error::Damaged(format!("row {number} of its journal is another one, or one before it is")))
    }

    /// The row of this number, as it was when it was the last; none if there is no such row.
    pub fn row(&mut self, number: i64) -> Result<Option<LastRow>, Error> {
        let chain = self.kept.chain_of(number)?;
        Ok(chain.map(|chain| LastRow { number, chain: u128::from_be_bytes(chain) }))
    }

    /// Waits until the log has rows that this store has neither read nor stored, up to the deadline, and says whether it
    /// has. It holds no lock: it looks every few milliseconds. [`latest`](Store::latest) reads them.
    pub fn changed(&mut self, deadline: Instant) -> Result<bool, Error> {
        let mut pause = SHORTEST_PAUSE;
        loop {
            if self.kept.has_more()? {
                return Ok(true);
            }
            let left = deadline.saturating_duration_since(Instant::now());
            if left.is_zero() || sqlite::is_ending() {
                return Ok(false);
            }
            sleep(pause.min(left));
            pause = (2 * pause).min(LONGEST_PAUSE);
        }
    }

    /// What became of the request of an [`Error::Unknown`]: how many rows come before its own, if it is stored. If it
    /// is not, it may still come, as long as a message with it is on its way.
    pub fn settle(&mut self, request: u64) -> Result<Option<i64>, Error> {
        self.kept.settle(request)
    }

    /// Takes the rows of a server's log that are not yet audited once more, and stores the answer of each on the
    /// server, for its views. Returns how many rows are then audited. It needs a role that is admitted as the audit. In
    /// a file each row has its answer.
    pub fn audit(&mut self) -> Result<i64, Error> {
        self.kept.audit()
    }

    /// Copies the write-ahead log to the file, and says whether that is all of it: then the file holds every step by
    /// itself until the next one is stored. A process that reads may prevent it, and one that holds the lock for longer
    /// than a tenth of a second. Call it when there is nothing to store for a while, and again if it was not all. A
    /// server does this by itself.
    pub fn checkpoint(&mut self) -> Result<bool, Error> {
        self.kept.checkpoint()
    }

    /// Closes the log. What this store has stored is copied to the file, unless another process holds the lock at that
    /// moment. If no other process has the log open, its write-ahead log is removed, and one file is left. A store that
    /// is dropped does the same, but cannot report an error; no step depends on it.
    pub fn close(self) -> Result<(), Error> {
        self.kept.close()
    }

    /// Writes the log as it is now to a new file, whole or not at all, and on the disk when this returns. Others may
    /// write at the same time. It is made under the name with the process's number and `.part` after it, which stays if
    /// the process is killed. The accounts that may read and write the log may read and write the copy.
    ///
    /// [`Error::Exists`] and [`Error::File`] are about the copy; any other error is about the log.
    ///
    /// The copy is a single file, and can be read from a read-only disk. It becomes a log in use when a step is taken
    /// on it.
    ///
    /// If `to` is an address, the log is copied to a server, with the same rows, times, processes and notes, all of
    /// them or none; only an administrator of the server's logs may do that.
    pub fn copy_to(&mut self, to: impl AsRef<Path>) -> Result<(), Error> {
        let view = self.kept.latest()?.log().view()?;
        let fresh = (view.client_count(), view.capacity());
        match Address::parse(to.as_ref())? {
            Address::File(path) => match self.kept.copy_file(&path) {
                Some(copied) => copied,
                None => write_new(&path, fresh, PRIVATE, &mut |each| self.kept.each_row(FIRST_ROW, each)),
            },
            Address::Server(address) => import(address, fresh, &mut |each| self.kept.each_row(FIRST_ROW, each)),
        }
    }

    /// Writes a log of the earlier format to a new file with the same rows, whole or not at all, and does not change
    /// this one. The earlier format does not say when each row was stored, and by which process.
    pub fn upgrade_to(&mut self, to: impl AsRef<Path>) -> Result<(), Error> {
        self.kept.upgrade_to(to.as_ref())
    }

    /// Takes any step, under the rights that the log keeps.
    pub fn take(&mut self, client: u64, step: Step) -> Result<Answer, Error> {
        self.one(&Change::Step(client, step).into())
    }

    /// The client adds an entry whose value is the sum of the parts of these scores.
    pub fn write_scores(&mut self, client: u64, scores: &[u16]) -> Result<Position, Error> {
        match self.one(&Change::WriteScores(client, scores.to_vec()).into())? {
            Answer::Stored(at) => Ok(at),
            _ => Err(crate::steps::no_answer()),
        }
    }

    /// Takes these steps one after the other as one request, in one transaction: all of them are stored, or none.
    /// Answers each; if every one is refused, nothing is stored.
    pub fn take_all(&mut self, asked: &[Asked]) -> Result<Vec<Told>, Error> {
        if asked.iter().any(|asked| asked.note.as_ref().is_some_and(|note| note.len() > NOTE_LIMIT)) {
            return Err(Error::TooLong { what: "a note", limit: NOTE_LIMIT });
        }
        self.ask(&|_| Ok(asked.to_vec()))
    }

    /// Takes the steps of a plan one after the other, up to the budget, as one request, and returns how many it took. A
    /// refused step counts, and the next one is taken. The log ends as after the same steps taken one by one.
    pub fn run_plan(&mut self, plan: &[StepWord], budget: u64) -> Result<u64, Error> {
        let length = usize::try_from(budget).map_or(plan.len(), |budget| budget.min(plan.len()));
        let steps = plan[..length].iter().filter_map(|word| Some(Change::Step(word.client(), word.step()?)));
        let asked: Vec<Asked> = steps.map(Asked::from).collect();
        self.take_all(&asked)?;
        Ok(length as u64)
    }

    /// Keeps a mark of this name at the log's entry count.
    pub fn set_mark(&mut self, name: MarkName) -> Result<(), Error> {
        self.one(&Change::SetMark(name).into()).map(drop)
    }

    /// Drops the mark of this name.
    pub fn drop_mark(&mut self, name: MarkName) -> Result<(), Error> {
        self.one(&Change::DropMark(name).into()).map(drop)
    }

    /// Sets the rights from now on, for the steps of every process. Rights that do not fit this log are refused.
    pub fn set_rights(&mut self, rights: &Rights) -> Result<(), Error> {
        self.each_done(&|replica| {
            replica.fits(rights)?;
            let before = *replica.rights.words();
            let words = (0..).zip(rights.words().iter().zip(before)).filter(|(_, (now, then))| *now != then);
            Ok(words.map(|(client, (&word, _))| Change::SetRights(client, word).into()).collect())
        })
    }

    /// Gives a client a right.
    pub fn grant(&mut self, client: u64, right: Right) -> Result<(), Error> {
        self.change_rights(client, |word| word | right.bit())
    }

    /// Takes a right from a client.
    pub fn revoke(&mut self, client: u64, right: Right) -> Result<(), Error> {
        self.change_rights(client, |word| word & !right.bit())
    }

    /// A client's word of rights, made of what it is now. Where it stays the same there is nothing to store.
    fn change_rights(&mut self, client: u64, changed: impl Fn(u64) -> u64) -> Result<(), Error> {
        self.each_done(&|replica| {
            if client >= replica.log().view()?.client_count() {
                return Err(Error::Refused(Refusal::UnknownClient));
            }
            let before = replica.rights.words()[client as usize];
            let word = changed(before);
            Ok(if word == before { vec![] } else { vec![Change::SetRights(client, word).into()] })
        })
    }

    /// Takes one step. A refusal is the error.
    pub(crate) fn one(&mut self, asked: &Asked) -> Result<Answer, Error> {
        let told = self.ask(&|_| Ok(vec![asked.clone()]))?;
        Ok(told.into_iter().next().unwrap_or(Err(Refusal::WrongLength))?)
    }

    /// Takes steps of which none may be refused.
    fn each_done(&mut self, wish: &crate::driver::Wish<'_>) -> Result<(), Error> {
        self.ask(wish)?.into_iter().try_for_each(|told| Ok(told.map(drop)?))
    }

    fn ask(&mut self, wish: &Wish<'_>) -> Result<Vec<Told>, Error> {
        let (told, stored) = self.kept.ask(wish)?;
        stored.map_or(Ok(()), |known| self.tell_witness(known))?;
        Ok(told)
    }
}

impl fmt::Debug for Store {
    fn fmt(&self, f: &mut fmt::Formatter<'_>) -> fmt::Result {
        let rows = self.kept.known().map(|known| known.rows);
        f.debug_struct("Store").field("path", &self.path()).field("rows", &rows).finish_non_exhaustive()
    }
}
