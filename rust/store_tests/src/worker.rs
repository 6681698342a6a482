//! A controller process that follows the protocol on logs that rotate, and notes its answers.

use crate::answered::Answered;
use crate::calls;
use crate::notes::{self, Note, Notes, Refused, sum};
use crate::place::{Place, capacity_of};
use crate::shared::{RememberingStore, Shared, WordStore, open_store};
use crate::waits::Waits;
use cindrolf::{Answer, Kind, LedgerNumber, Refusal, Stage, Step, VALUE_LIMIT};
use model::random::Random;
use std::time::Duration;
use store::{Error, Stored};

/// How a process stores and notes.
#[derive(Clone, Copy, Debug, PartialEq, Eq)]
pub enum Mode {
    /// By the store, noting a write once it is answered.
    Sound,
    /// By the store, noting a write as answered before its commit: wrong.
    AnswersEarly,
    /// By a store that commits each word by itself: wrong.
    CommitsWords,
    /// By a store that refuses what it remembers the log to refuse: wrong.
    RefusesFromMemory,
}

impl Mode {
    /// The mode of this name.
    pub fn from_name(name: &str) -> Option<Mode> {
        match name {
            "sound" => Some(Mode::Sound),
            "answers-early" => Some(Mode::AnswersEarly),
            "commits-words" => Some(Mode::CommitsWords),
            "refuses-from-memory" => Some(Mode::RefusesFromMemory),
            _ => None,
        }
    }

    /// Its name.
    pub fn name(self) -> &'static str {
        match self {
            Mode::Sound => "sound",
            Mode::AnswersEarly => "answers-early",
            Mode::CommitsWords => "commits-words",
            Mode::RefusesFromMemory => "refuses-from-memory",
        }
    }
}

/// The log as a process uses it in a mode.
pub fn open(place: &Place, log: u64, mode: Mode, clients: u64) -> Result<Box<dyn Shared>, Error> {
    let (path, capacity) = (place.log(log), capacity_of(log));
    let shared: Box<dyn Shared> = match mode {
        Mode::CommitsWords => Box::new(WordStore::open(&path, clients, capacity)?),
        Mode::RefusesFromMemory => Box::new(RememberingStore::over(open_store(&path, clients, capacity)?)?),
        _ => Box::new(open_store(&path, clients, capacity)?),
    };
    place.opened(log).map_err(file)?;
    Ok(shared)
}

fn file(error: std::io::Error) -> Error {
    Error::File(error.to_string())
}

/// A process, which is also the client of its number.
pub struct Worker {
    place: Place,
    number: u64,
    clients: u64,
    mode: Mode,
    notes: Notes,
    answered: Answered,
    waits: Waits,
    random: Random,
    log: u64,
    shared: Box<dyn Shared>,
    /// The next value that it writes.
    value: u64,
    /// Whether its last write was refused by the fence.
    fenced: bool,
}

impl Worker {
    /// Goes on where the process of this number was killed.
    pub fn start(place: &Place, number: u64, clients: u64, mode: Mode, seed: u64) -> Result<Worker, Error> {
        let folder = place.folder();
        let asked = notes::read(folder, number).map_err(file)?.into_iter().filter_map(|note| match note {
            Note::Asked { value, .. } => Some(value + 1),
            _ => None,
        });
        let value = asked.max().unwrap_or(number << 48);
        let mut notes = Notes::open(folder, number).map_err(file)?;
        notes.add(Note::Started).map_err(file)?;
        let answered = Answered::open(folder, number, clients).map_err(file)?;
        let mut waits = Waits::open(folder, number).map_err(file)?;
        let log = place.log_count().saturating_sub(1);
        let shared = waits.timed(|| open(place, log, mode, clients))?;
        let (place, random) = (place.clone(), Random::new(seed));
        Ok(Worker { place, number, clients, mode, notes, answered, waits, random, log, shared, value, fenced: false })
    }

    /// Goes on until it is killed, or until something fails.
    pub fn run(mut self) -> Error {
        loop {
            if let Err(error) = self.turn() {
                return error;
            }
        }
    }

    fn turn(&mut self) -> Result<(), Error> {
        let log = self.waits.timed(|| self.shared.log())?;
        let Ok(view) = log.view() else {
            // Only a store that is wrong gets here; the audit finds it.
            return self.rotate();
        };
        let named = view.named_leader() == self.number;
        let me = view.client(self.number).expect("a client of the log");
        let ledger = me.ledger.map(|ledger| ledger.number);
        if self.random.below(40) == 0 {
            return self.any_step(ledger);
        }
        let step = match me.stage {
            Stage::Waiting if named => Step::BECOME,
            Stage::Waiting => return self.wait(),
            Stage::Fetching => Step::FETCH,
            Stage::ClosingLast => Step::CLOSE_LAST,
            Stage::Finishing => Step::FINISH,
            Stage::Creating if !named && self.random.chance(50) => Step::ABDICATE,
            Stage::Creating => Step::CREATE,
            Stage::Appending => Step::APPEND,
            Stage::Writing if self.fenced || self.random.chance(1) => Step::CLOSE_OWN,
            // A stale leader goes on too, until the fence.
            Stage::Writing => return self.write(),
        };
        self.other_step(step, ledger)
    }

    /// Takes a step whose turn it may not be, so that every refusal is met.
    fn any_step(&mut self, ledger: Option<LedgerNumber>) -> Result<(), Error> {
        match self.random.below(13) {
            8 => self.write(),
            10 => self.take(self.number, Step::write(VALUE_LIMIT + 1)).map(drop),
            11 => self.take(self.clients, Step::write(1)).map(drop),
            12 => self.take(255, Step::NAME).map(drop),
            number => self.other_step(Step::new(Kind::from_number(number).expect("one of ten"), 0), ledger),
        }
    }

    /// Takes a step that is no write.
    fn other_step(&mut self, step: Step, ledger: Option<LedgerNumber>) -> Result<(), Error> {
        match self.take(self.number, step)? {
            Ok(Answer::Done) if matches!(step.kind(), Kind::Finish | Kind::CloseOwn) => self.closed(ledger)?,
            Err(Refusal::NoLedgerNumber) => return self.rotate(),
            _ => {}
        }
        self.fenced &= step != Step::CLOSE_OWN;
        Ok(())
    }

    /// Takes a step, and tells the others its row, or notes that it was refused.
    fn take(&mut self, client: u64, step: Step) -> Result<Result<Answer, Refusal>, Error> {
        let (log, known) = (self.log, self.answered.known(self.log).map_err(file)?);
        let result = self.waits.timed(|| self.shared.take(client, step));
        let row = self.shared.row();
        match result {
            Ok(answer) => {
                row.map_or(Ok(()), |row| self.answered.tell(log, row)).map_err(file)?;
                Ok(Ok(answer))
            }
            Err(Error::Refused(refusal)) => {
                let (value, refused, row) = (step.value(), refusal.number(), row.unwrap_or(0));
                let step = step.kind().number();
                self.note(Note::Refused(Refused { log, client, step, value, refusal: refused, known, row }))?;
                Ok(Err(refusal))
            }
            Err(error) => Err(error),
        }
    }

    /// A waiting client names itself now and then. A look at a server costs more, so there are fewer.
    fn wait(&mut self) -> Result<(), Error> {
        let (seldom, pause) = if self.place.is_server() { (60, (5_000, 20_000)) } else { (400, (200, 2_000)) };
        if self.random.below(seldom) == 0 {
            return self.take(self.number, Step::NAME).map(drop);
        }
        std::thread::sleep(Duration::from_micros(self.random.between(pause.0, pause.1)));
        // The others may have gone on to the next log.
        if self.random.below(50) == 0 && self.place.has(self.log + 1) {
            return self.rotate();
        }
        Ok(())
    }

    fn write(&mut self) -> Result<(), Error> {
        let (log, value) = (self.log, self.value);
        self.value += 1;
        self.note(Note::Asked { log, value })?;
        if self.mode == Mode::AnswersEarly {
            let mut notes = self.notes.again().map_err(file)?;
            calls::before_write(move || {
                let _ = notes.add(Note::Stored { log, value, at: None });
                std::thread::sleep(Duration::from_micros(200));
            });
        }
        let answer = self.take(self.number, Step::write(value));
        calls::forget_before_write();
        if let Err(error) = &answer
            && error.stored() == Stored::No
        {
            self.note(Note::NotStored { log, value })?;
        }
        match answer? {
            Ok(Answer::Stored(at)) => {
                let at = Some((at.number.0, at.place.0));
                // Who is killed now was answered, and could tell nobody.
                if self.random.chance(10) {
                    std::thread::sleep(Duration::from_micros(self.random.below(1_000)));
                }
                if self.mode == Mode::AnswersEarly { Ok(()) } else { self.note(Note::Stored { log, value, at }) }
            }
            Ok(other) => Err(Error::Damaged(format!("a write was answered {other}"))),
            Err(refusal) => {
                self.fenced = refusal == Refusal::LedgerFenced;
                if refusal == Refusal::LogFull { self.rotate() } else { Ok(()) }
            }
        }
    }

    /// Notes what a ledger holds that it has just closed.
    fn closed(&mut self, ledger: Option<LedgerNumber>) -> Result<(), Error> {
        let Some(ledger) = ledger else { return Ok(()) };
        let log = self.shared.log()?;
        if !log.well_formed() {
            // As above.
            return self.rotate();
        }
        let words = log.read_ledger(ledger)?;
        let (entries, sum) = (words.len() as u64, sum(words));
        self.note(Note::Closed { log: self.log, ledger: ledger.0, entries, sum })
    }

    fn rotate(&mut self) -> Result<(), Error> {
        self.log += 1;
        self.fenced = false;
        self.shared = self.waits.timed(|| open(&self.place, self.log, self.mode, self.clients))?;
        Ok(())
    }

    fn note(&mut self, note: Note) -> Result<(), Error> {
        self.notes.add(note).map_err(file)
    }
}
