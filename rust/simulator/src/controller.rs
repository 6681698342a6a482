//! A controller: it does what the kernel decides, and keeps its copy with the library.

use crate::change::Change;
use crate::engine::Request;
use crate::fault::Fault;
use crate::judge::known_mark;
use crate::kernel::{Act, Phase, Seen, decide};
use crate::replica::Replica;
use crate::row::{Known, Row, requests};
use crate::truth::refused;
use cindrolf::sharing::request_id;
use model::Answer;
use std::num::NonZeroU32;

/// What a controller sends to the engine.
#[derive(Clone, Debug)]
pub struct Message {
    /// The controller.
    pub from: usize,
    /// The number that it drew when it started.
    pub start: NonZeroU32,
    /// Which of its messages this is.
    pub turn: u64,
    /// The rows that it knows.
    pub known: Known,
    /// The same rows as the judge knows them.
    pub mark: u64,
    /// What it asks for.
    pub call: Call,
}

/// What a message asks for.
#[derive(Clone, Debug)]
pub enum Call {
    /// The rows after those known.
    Read,
    /// A request is to be appended.
    Append(Request),
}

/// What the engine answers.
#[derive(Clone, Debug)]
pub struct Reply {
    /// The controller.
    pub to: usize,
    /// The number that it drew when it started.
    pub start: NonZeroU32,
    /// Which of its messages this answers.
    pub turn: u64,
    /// The answer.
    pub answer: Told,
}

/// An answer of the engine.
#[derive(Clone, Debug)]
pub enum Told {
    /// The rows after those known.
    Rows(Vec<Row>),
    /// The place of the request's first row.
    Placed(usize),
    /// The engine has another history.
    OtherHistory,
}

/// What a controller is about to do.
#[derive(Clone, Copy, Debug, PartialEq, Eq)]
pub enum Todo {
    /// Nothing: nobody asks.
    Rest,
    /// What the kernel decided: take, read or append.
    Do(Act),
    /// It waits for a reply.
    Await,
}

/// What became of an asking.
#[derive(Clone, Debug, PartialEq, Eq)]
pub enum End {
    /// It was told these answers, of the rows from this place on.
    Told(usize, Vec<Answer>),
    /// It was refused without a row, with these answers.
    Denied(Vec<Answer>),
    /// It was not sent, and never will be.
    Withdrawn,
    /// It was sent, and nobody waits for it any more.
    Forgotten,
}

/// A controller.
pub struct Controller {
    number: usize,
    fault: Option<Fault>,
    phase: Phase,
    todo: Todo,
    replica: Replica,
    known: Known,
    mark: u64,
    asking: usize,
    changes: Vec<Change>,
    /// How the steps were answered when they were last taken on the copy.
    tried: Vec<Answer>,
    start: NonZeroU32,
    requests: u32,
    turn: u64,
}

impl Controller {
    /// One that starts, with a number that it has drawn.
    pub fn start(number: usize, clients: u64, start: NonZeroU32, fault: Option<Fault>) -> Controller {
        Controller {
            number,
            fault,
            phase: Phase::Idle,
            todo: Todo::Rest,
            replica: Replica::fresh(clients),
            known: Known::NOTHING,
            mark: 0,
            asking: 0,
            changes: vec![],
            tried: vec![],
            start,
            requests: 0,
            turn: 0,
        }
    }

    /// What it is about to do.
    pub fn todo(&self) -> Todo {
        self.todo
    }

    /// Its copy.
    pub fn replica(&self) -> &Replica {
        &self.replica
    }

    /// How many rows it knows.
    pub fn known(&self) -> usize {
        self.known.rows
    }

    /// The same rows as the judge knows them.
    pub fn mark(&self) -> u64 {
        self.mark
    }

    /// Whether it has found another history, and does nothing any more.
    pub fn halted(&self) -> bool {
        self.phase == Phase::Halted
    }

    /// Which asking it works on, if any.
    pub fn asking(&self) -> Option<usize> {
        (!matches!(self.phase, Phase::Idle | Phase::Halted)).then_some(self.asking)
    }

    /// Whether it has sent a request, and waits for its row.
    pub fn waits(&self) -> bool {
        matches!(self.phase, Phase::Waiting { .. })
    }

    /// Whether a reply is to what it sent when it was this process.
    pub fn expects(&self, reply: &Reply) -> bool {
        self.start == reply.start
    }

    /// It is asked for the steps of a request.
    pub fn ask(&mut self, asking: usize, changes: Vec<Change>) -> Option<End> {
        (self.asking, self.changes) = (asking, changes);
        self.see(Seen::Asked)
    }

    /// It takes the steps on its copy, and takes them back.
    pub fn take(&mut self) -> Option<End> {
        self.tried = self.replica.clone().take_all(&self.changes);
        if self.tried.iter().all(|&answer| refused(answer)) {
            return self.see(Seen::Refused);
        }
        let id = self.next_id();
        self.see(Seen::Accepted { id })
    }

    /// What it sends, where it reads or appends.
    pub fn message(&mut self) -> Option<Message> {
        let call = match (self.todo, self.phase) {
            (Todo::Do(Act::Read), _) => Call::Read,
            (Todo::Do(Act::Append), Phase::Waiting { id }) => {
                Call::Append(Request { id, changes: self.changes.clone(), asking: self.asking })
            }
            _ => return None,
        };
        self.todo = Todo::Await;
        self.turn += 1;
        let Controller { number: from, start, turn, known, mark, .. } = *self;
        Some(Message { from, start, turn, known, mark, call })
    }

    /// A reply arrives. One to an earlier message is dropped.
    pub fn hear(&mut self, reply: Reply) -> Option<End> {
        let awaited = self.todo == Todo::Await && reply.turn == self.turn;
        if !awaited && (self.fault != Some(Fault::HearsOldReplies) || self.todo != Todo::Await) {
            return None;
        }
        match reply.answer {
            Told::Rows(rows) => self.read(&rows),
            Told::Placed(place) => self.see(Seen::Placed { known: self.known.rows as u64, place: place as u64 }),
            Told::OtherHistory => self.see(Seen::OtherHistory),
        }
    }

    /// No reply came in time.
    pub fn silence(&mut self) -> Option<End> {
        self.see(Seen::Silence)
    }

    /// It is asked to wait no longer.
    pub fn stop(&mut self) -> Option<End> {
        self.see(Seen::Stop)
    }

    fn next_id(&mut self) -> u64 {
        let start = if self.fault == Some(Fault::DrawsNoNumber) { NonZeroU32::MIN } else { self.start };
        let id = request_id(start, self.requests);
        self.requests += 1;
        id
    }

    /// Takes the rows that were read, request by request. While it waits, the kernel says of each whether it is its own.
    fn read(&mut self, rows: &[Row]) -> Option<End> {
        for request in requests(rows) {
            if self.waits() && self.fault != Some(Fault::ReadsPastItsOwnRow) {
                let end = self.see(Seen::Next { known: self.known.rows as u64, id: request[0].id });
                if end.is_some() {
                    return end;
                }
            }
            for row in request {
                let _ = self.replica.take(row.change);
                self.count(row.id, row.index, row.change);
            }
        }
        self.see(Seen::Read { known: self.known.rows as u64 })
    }

    fn count(&mut self, id: u64, index: u32, change: Change) {
        self.known = self.known.and(id, index, change);
        self.mark = known_mark(self.mark, id, index, change);
    }

    /// Has the kernel decide, and does what is done at once.
    fn see(&mut self, seen: Seen) -> Option<End> {
        let before = self.phase;
        let turn = decide(before, seen, self.fault);
        self.phase = turn.phase;
        self.todo = Todo::Rest;
        match turn.act {
            Act::Nothing => None,
            Act::Read | Act::Try | Act::Append => {
                self.todo = Todo::Do(turn.act);
                None
            }
            Act::Tell => Some(self.tell(before)),
            Act::Refuse => Some(End::Denied(self.tried.clone())),
            Act::Withdraw => Some(End::Withdrawn),
            Act::Unknown => Some(End::Forgotten),
        }
    }

    /// Takes the steps on its copy for good.
    fn tell(&mut self, before: Phase) -> End {
        let place = self.known.rows;
        if self.fault == Some(Fault::CountsItsRowOnly) {
            self.tried = self.replica.clone().take_all(&self.changes);
        } else {
            self.tried = self.replica.take_all(&self.changes);
        }
        if let Phase::Waiting { id } = before
            && self.fault != Some(Fault::TakesItsRowTwice)
        {
            for (index, change) in (0..).zip(self.changes.clone()) {
                self.count(id, index, change);
            }
        }
        End::Told(place, self.tried.clone())
    }
}
