//! Drives an engine: does what the kernel of the sharing protocol decides, and reports the results.
//!
//! The kernel is proved (crates/turns), and nothing else decides when a request is sent, told or refused. What a driver
//! may report is in docs/SHARING.md. A request gets its id only while the engine is held, so that a request that the
//! log then refuses has no row. If an engine fails before it has sent anything, the request ends: nothing is awaited,
//! and the next one begins as after a start.

use crate::check::WrongAnswer;
use crate::engine::{Appended, Engine, Request};
use crate::replica::{Replica, Tried};
use crate::request::{Asked, Told};
use crate::{Error, Known};
use cindrolf::sharing::{Act, Phase, Seen, decide, request_id};
use std::num::NonZeroU32;
use std::thread::sleep;
use std::time::{Duration, Instant};

/// How long to wait before a request is sent again.
const PAUSE: Duration = Duration::from_millis(10);

/// What is asked for, made of the log as it is when it is asked.
pub(crate) type Wish<'a> = dyn Fn(&Replica) -> Result<Vec<Asked>, Error> + 'a;

/// How many wrong answers are kept to be told.
const KEPT: usize = 100;

/// An engine, and the copy that its rows come to.
pub(crate) struct Driver<E> {
    pub engine: E,
    pub replica: Replica,
    pub wrong: Vec<WrongAnswer>,
    phase: Phase,
    start: Option<NonZeroU32>,
    /// How many requests were given an id since the start.
    requests: u32,
}

/// The request that is worked on.
#[derive(Default)]
struct Work {
    asked: Vec<Asked>,
    tried: Option<Tried>,
    id: u64,
    /// The rows that are known after each of its steps, where these come straight after those that the copy had when it
    /// was appended.
    after: Vec<Known>,
    /// Whether anything of it was sent.
    sent: bool,
    /// Why nothing is known of it.
    why: String,
}

impl Work {
    /// Nothing was heard: it is tried again after a while, until the deadline.
    fn silent(&mut self, why: String, deadline: Instant) -> Seen {
        self.why = why;
        if Instant::now() >= deadline {
            return Seen::Stop;
        }
        sleep(PAUSE);
        Seen::Silence
    }
}

impl<E: Engine> Driver<E> {
    /// A driver whose copy has all rows.
    pub fn over(mut engine: E) -> Result<Self, Error> {
        let replica = engine.beginning()?;
        let (wrong, phase) = (Vec::new(), Phase::Idle);
        let mut driver = Driver { engine, replica, wrong, phase, start: None, requests: 0 };
        driver.follow()?;
        Ok(driver)
    }

    /// Has the copy begin again with the fresh log, and follow all rows.
    pub fn reload(&mut self) -> Result<(), Error> {
        self.replica = self.engine.beginning()?;
        self.wrong.clear();
        self.follow()
    }

    /// Has the copy follow the rows that it does not have.
    pub fn follow(&mut self) -> Result<(), Error> {
        self.read(None).map(drop)
    }

    fn read(&mut self, awaited: Option<u64>) -> Result<Seen, Error> {
        let followed = self.engine.follow(&mut self.replica, awaited)?;
        self.keep(followed.wrong);
        let known = self.rows();
        Ok(match awaited.filter(|_| followed.stopped) {
            Some(id) => Seen::Next { known, id },
            None => Seen::Read { known },
        })
    }

    fn keep(&mut self, found: Vec<WrongAnswer>) {
        let room = KEPT.saturating_sub(self.wrong.len());
        self.wrong.extend(found.into_iter().take(room));
    }

    /// Asks for steps, and gives their answers. They are stored all of them or none: none where each is refused. A request
    /// of which nothing is heard is sent again until the deadline.
    pub fn ask(&mut self, wish: &Wish<'_>, deadline: Instant) -> Result<Vec<Told>, Error> {
        let result = self.turns(wish, deadline);
        if result.is_err() {
            // Where nothing was stored, another process may be given the same number. So this one draws another.
            self.start = None;
            if self.phase != Phase::Halted {
                self.phase = Phase::Idle;
            }
        }
        result
    }

    fn turns(&mut self, wish: &Wish<'_>, deadline: Instant) -> Result<Vec<Told>, Error> {
        let (mut work, mut seen) = (Work::default(), Seen::Asked);
        self.engine.catch_up(&mut self.replica).map(|wrong| self.keep(wrong))?;
        loop {
            let turn = decide(self.phase, seen)?;
            let before = std::mem::replace(&mut self.phase, turn.phase);
            let waits = matches!(before, Phase::Waiting { .. });
            seen = match turn.act {
                Act::Try => self.attempt(wish, &mut work)?,
                Act::Read => match self.read(waits.then_some(work.id)) {
                    Err(Error::OtherHistory) => Seen::OtherHistory,
                    Err(error) if waits => work.silent(error.to_string(), deadline),
                    seen => seen?,
                },
                Act::Append => self.append(&mut work, deadline)?,
                Act::Tell => return self.tell(&mut work),
                Act::Refuse => return Ok(work.tried.map_or_else(Vec::new, |tried| tried.told)),
                // What never left this process is not stored, and never will be.
                Act::Unknown if !work.sent => return Err(Error::Unreachable(work.why)),
                Act::Unknown => return Err(Error::Unknown { request: work.id, why: work.why }),
                Act::Withdraw | Act::Nothing if self.phase == Phase::Halted => return Err(Error::OtherHistory),
                Act::Withdraw | Act::Nothing => {
                    return Err(Error::Damaged("no number is left for a request".into()));
                }
            };
        }
    }

    fn append(&mut self, work: &mut Work, deadline: Instant) -> Result<Seen, Error> {
        let steps = (0..).zip(&work.asked);
        work.after = steps
            .scan(self.replica.known, |known, (index, asked)| {
                *known = known.and(work.id, index, &asked.change);
                Some(*known)
            })
            .collect();
        let stamps = work.tried.as_ref().map_or(&[][..], |tried| &tried.stamps);
        let request = Request { id: work.id, asked: &work.asked, stamps, after: &work.after };
        Ok(match self.engine.append(self.replica.known, &request)? {
            Appended::Placed(place) => {
                work.sent = true;
                Seen::Placed { known: self.rows(), place: place as u64 }
            }
            Appended::OtherHistory => {
                (work.sent, work.why) = (true, Error::OtherHistory.to_string());
                Seen::OtherHistory
            }
            Appended::Silence { sent, why } => {
                work.sent |= sent;
                work.silent(why, deadline)
            }
        })
    }

    /// Takes the steps on the copy and takes them back, and holds the engine where one of them is accepted.
    fn attempt(&mut self, wish: &Wish<'_>, work: &mut Work) -> Result<Seen, Error> {
        if self.refused(wish, work)? {
            return Ok(Seen::Refused);
        }
        let before = self.replica.known;
        let found = self.engine.hold(&mut self.replica)?;
        self.keep(found.wrong);
        if self.replica.known != before && self.refused(wish, work)? {
            self.engine.release()?;
            return Ok(Seen::Refused);
        }
        self.replica.room(work.asked.iter().map(|asked| &asked.change))?;
        work.id = self.next_id()?;
        Ok(Seen::Accepted { id: work.id })
    }

    /// Whether each step is refused by the copy as it is now.
    fn refused(&mut self, wish: &Wish<'_>, work: &mut Work) -> Result<bool, Error> {
        work.asked = wish(&self.replica)?;
        let tried = self.replica.attempt(work.asked.iter().map(|asked| &asked.change))?;
        Ok(work.tried.insert(tried).told.iter().all(Result::is_err))
    }

    /// An id that no request had, or 0.
    fn next_id(&mut self) -> Result<u64, Error> {
        if self.start.is_none() || self.requests == u32::MAX {
            (self.start, self.requests) = (self.engine.start(&self.replica)?, 0);
        }
        let Some(start) = self.start else { return Ok(0) };
        self.requests += 1;
        Ok(request_id(start, self.requests - 1))
    }

    /// Takes the steps on the copy for good. Where the copy has the same rows as when they were tried, that is done.
    fn tell(&mut self, work: &mut Work) -> Result<Vec<Told>, Error> {
        if let Some(tried) = work.tried.as_mut()
            && self.replica.adopt(tried)
        {
            for (known, asked) in work.after.iter().zip(&work.asked) {
                self.replica.count_as(*known, work.id, &asked.change);
            }
            return Ok(std::mem::take(&mut tried.told));
        }
        let each = (0..).zip(&work.asked).map(|(index, asked)| {
            let told = self.replica.take(&asked.change)?;
            self.replica.count(work.id, index, &asked.change);
            Ok(told)
        });
        each.collect()
    }

    fn rows(&self) -> u64 {
        self.replica.known.rows as u64
    }

    /// The rows that the copy is made of.
    pub fn known(&self) -> Known {
        self.replica.known
    }
}
