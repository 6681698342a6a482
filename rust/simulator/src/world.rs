//! A run: controllers, the engine, and what happens between them, from a seed.

use crate::change::Change;
use crate::controller::{Call, Controller, End, Message, Reply, Todo, Told};
use crate::engine::{Engine, OtherHistory, Request};
use crate::fault::Fault;
use crate::judge::{Breach, Counts, Judge};
use crate::kernel::Act;
use crate::row::{Known, requests};
use crate::wishes::wish;
use cindrolf::Step;
use cindrolf::sharing::request_id;
use model::random::Random;

/// How many turns that are served a controller needs at most until it is told: from the asking, and from waiting.
const TURNS_FROM_ASKING: u64 = 5;
const TURNS_FROM_WAITING: u64 = 2;

/// The most events of a run.
const MOST_EVENTS: u64 = 400;

/// What a run came to.
#[derive(Clone, Copy, Debug, Default, PartialEq, Eq)]
pub struct Summary {
    /// What the judge counted.
    pub counts: Counts,
    /// Controllers that crashed and started again.
    pub crashes: u64,
    /// Failovers that kept all rows.
    pub failovers: u64,
    /// Failovers that lost rows.
    pub losses: u64,
    /// Controllers that found another history, and halted.
    pub halted: u64,
    /// The most turns that a controller needed until it was told while another appended before each.
    pub turns: u64,
}

/// A run in progress.
struct World {
    random: Random,
    fault: Option<Fault>,
    clients: u64,
    /// How much goes wrong, from 0 (messages are only late) to 4.
    trouble: u64,
    engine: Engine,
    controllers: Vec<Controller>,
    /// For how many more events each controller is silent: it does nothing and hears nothing.
    silent: Vec<u64>,
    /// On their way to the engine.
    messages: Vec<Message>,
    /// On their way back.
    replies: Vec<Reply>,
    judge: Judge,
    summary: Summary,
}

/// Runs a seed. What breaks a promise is the error.
pub fn run(seed: u64, fault: Option<Fault>) -> Result<Summary, Breach> {
    let mut random = Random::new(seed);
    let (clients, trouble) = (random.between(2, 4), random.below(5));
    let mut engine = Engine::new(fault);
    let start = |number| Controller::start(number, clients, engine.draw(), fault);
    let controllers = (0..clients as usize).map(start).collect();
    let silent = vec![0; clients as usize];
    let events = random.between(20, MOST_EVENTS);
    let judge = Judge::new(clients);
    let (messages, replies, summary) = (vec![], vec![], Summary::default());
    let mut world =
        World { random, fault, clients, trouble, engine, controllers, silent, messages, replies, judge, summary };
    for _ in 0..events {
        world.judge.tick();
        world.event()?;
    }
    world.summary.counts = world.judge.check(world.engine.rows(), &world.controllers)?;
    world.everyone_is_told()?;
    Ok(world.summary)
}

impl World {
    fn event(&mut self) -> Result<(), Breach> {
        for left in &mut self.silent {
            *left = left.saturating_sub(1);
        }
        let troubled = self.random.below(4) < self.trouble;
        match self.random.below(if troubled { 1_000 } else { 930 }) {
            0..500 => self.controller_acts(),
            500..740 => self.engine_serves(),
            740..930 => self.reply_arrives(),
            930..950 => self.message_is_lost(),
            950..965 => self.reply_is_lost(),
            965..975 => self.crash(),
            975..980 => self.asker_stops(),
            980..986 => self.falls_silent(),
            986..991 => self.failover(),
            991..996 => self.numbers_are_copied(),
            _ => self.lossy_failover(),
        }
    }

    fn any_controller(&mut self) -> usize {
        self.random.below(self.controllers.len() as u64) as usize
    }

    /// A controller that rests is asked, one that has something to do does it, and one that waits may wait too long.
    fn controller_acts(&mut self) -> Result<(), Breach> {
        let number = self.any_controller();
        if self.controllers[number].halted() || self.silent[number] > 0 {
            return Ok(());
        }
        match self.controllers[number].todo() {
            Todo::Rest => self.ask(number),
            Todo::Do(Act::Try) => self.ended(number, Controller::take),
            Todo::Do(_) => {
                let message = self.controllers[number].message();
                self.messages.extend(message);
                Ok(())
            }
            Todo::Await if self.random.chance(8) => self.ended(number, Controller::silence),
            Todo::Await => Ok(()),
        }
    }

    fn ask(&mut self, number: usize) -> Result<(), Breach> {
        let controller = &mut self.controllers[number];
        let first = self.judge.next_value();
        let changes = wish(&mut self.random, controller.replica(), number as u64, self.clients, first);
        let asking = self.judge.ask(number, &changes, self.engine.rows().len());
        let end = controller.ask(asking, changes);
        self.end_of(asking, end)
    }

    /// Has a controller do something, and notes what became of its asking.
    fn ended(&mut self, number: usize, act: impl FnOnce(&mut Controller) -> Option<End>) -> Result<(), Breach> {
        let asking = self.controllers[number].asking();
        let end = act(&mut self.controllers[number]);
        asking.map_or(Ok(()), |asking| self.end_of(asking, end))
    }

    fn end_of(&mut self, asking: usize, end: Option<End>) -> Result<(), Breach> {
        end.map_or(Ok(()), |end| self.judge.end(asking, end, self.engine.rows().len()))
    }

    /// A message arrives at the engine, in any order. One of five arrives once more later.
    fn engine_serves(&mut self) -> Result<(), Breach> {
        if self.messages.is_empty() {
            return Ok(());
        }
        let at = self.random.below(self.messages.len() as u64) as usize;
        let again = self.random.chance(20);
        let message = if again { self.messages[at].clone() } else { self.messages.swap_remove(at) };
        let answer = self.serve(&message)?;
        let Message { from: to, start, turn, .. } = message;
        self.replies.push(Reply { to, start, turn, answer });
        Ok(())
    }

    fn serve(&mut self, message: &Message) -> Result<Told, Breach> {
        let answer = match &message.call {
            Call::Read => self.engine.since(message.known).map(|rows| Told::Rows(rows.to_vec())),
            Call::Append(request) => self.engine.append(message.known, request).map(Told::Placed),
        };
        match answer {
            Ok(answer) => {
                self.judge.served(message.known.rows, message.mark, self.engine.rows())?;
                Ok(answer)
            }
            Err(OtherHistory) => Ok(Told::OtherHistory),
        }
    }

    /// A reply arrives, in any order. One of eight arrives once more later.
    fn reply_arrives(&mut self) -> Result<(), Breach> {
        if self.replies.is_empty() {
            return Ok(());
        }
        let at = self.random.below(self.replies.len() as u64) as usize;
        if self.silent[self.replies[at].to] > 0 {
            return Ok(());
        }
        let reply = if self.random.chance(12) { self.replies[at].clone() } else { self.replies.swap_remove(at) };
        self.hears(reply)
    }

    fn hears(&mut self, reply: Reply) -> Result<(), Breach> {
        let number = reply.to;
        let controller = &self.controllers[number];
        if !controller.expects(&reply) || controller.halted() {
            return Ok(());
        }
        self.ended(number, |controller| controller.hear(reply))?;
        self.summary.halted += u64::from(self.controllers[number].halted());
        Ok(())
    }

    fn message_is_lost(&mut self) -> Result<(), Breach> {
        if !self.messages.is_empty() {
            let at = self.random.below(self.messages.len() as u64) as usize;
            self.messages.swap_remove(at);
        }
        Ok(())
    }

    fn reply_is_lost(&mut self) -> Result<(), Breach> {
        if !self.replies.is_empty() {
            let at = self.random.below(self.replies.len() as u64) as usize;
            self.replies.swap_remove(at);
        }
        Ok(())
    }

    /// A controller crashes and starts again, with nothing. What it has sent is still on its way.
    fn crash(&mut self) -> Result<(), Breach> {
        let number = self.any_controller();
        let controller = &self.controllers[number];
        if let Some(asking) = controller.asking() {
            // Whether the row comes is open where it was sent; else it never will.
            let end = if controller.waits() { End::Forgotten } else { End::Withdrawn };
            self.judge.end(asking, end, self.engine.rows().len())?;
        }
        self.controllers[number] = Controller::start(number, self.clients, self.engine.draw(), self.fault);
        self.summary.crashes += 1;
        Ok(())
    }

    /// A controller does nothing for a while, and then goes on.
    fn falls_silent(&mut self) -> Result<(), Breach> {
        let number = self.any_controller();
        self.silent[number] = self.random.between(20, 200);
        Ok(())
    }

    /// The numbers that were drawn up to now are copied to where a failover looks for them.
    fn numbers_are_copied(&mut self) -> Result<(), Breach> {
        self.engine.keep_numbers();
        Ok(())
    }

    fn asker_stops(&mut self) -> Result<(), Breach> {
        let number = self.any_controller();
        self.ended(number, Controller::stop)
    }

    /// Another server takes over, with all rows. Replies on their way are lost, and so are many messages.
    fn failover(&mut self) -> Result<(), Breach> {
        self.replies.clear();
        let random = &mut self.random;
        self.messages.retain(|_| random.chance(60));
        self.summary.failovers += 1;
        Ok(())
    }

    /// Another server takes over that has only the first rows.
    fn lossy_failover(&mut self) -> Result<(), Breach> {
        let places = requests(self.engine.rows())
            .scan(0, |place, request| Some(std::mem::replace(place, *place + request.len())));
        let places: Vec<usize> = places.collect();
        let last = places.len().saturating_sub(1 + self.random.below(6) as usize);
        let Some(&kept) = places.get(last) else { return Ok(()) };
        self.judge.lose(self.engine.rows(), kept, &self.controllers)?;
        self.engine.lose(kept);
        self.failover()?;
        self.summary.failovers -= 1;
        self.summary.losses += 1;
        Ok(())
    }

    /// From now on the engine serves everyone, while a stranger appends a row before each turn: everyone who was asked
    /// is told within so many turns.
    fn everyone_is_told(&mut self) -> Result<(), Breach> {
        for number in 0..self.controllers.len() {
            let controller = &mut self.controllers[number];
            if controller.asking().is_none() || controller.halted() {
                continue;
            }
            if controller.todo() == Todo::Await {
                let _ = controller.silence();
            }
            // A row that it was told of may have been lost: then it reads, and appends again.
            let again = u64::from(self.summary.losses > 0 && controller.waits());
            let limit = again + if controller.waits() { TURNS_FROM_WAITING } else { TURNS_FROM_ASKING };
            let turns = self.turns_until_told(number, limit)?;
            self.summary.turns = self.summary.turns.max(turns);
        }
        Ok(())
    }

    fn turns_until_told(&mut self, number: usize, limit: u64) -> Result<u64, Breach> {
        for turns in 1..=limit {
            self.stranger_appends();
            let controller = &mut self.controllers[number];
            let end = match controller.message() {
                None => controller.take(),
                Some(message) => {
                    let answer = match &message.call {
                        Call::Read => self.engine.since(message.known).map(|rows| Told::Rows(rows.to_vec())),
                        Call::Append(request) => self.engine.append(message.known, request).map(Told::Placed),
                    };
                    let Ok(answer) = answer else { return Ok(0) };
                    let Message { from: to, start, turn, .. } = message;
                    controller.hear(Reply { to, start, turn, answer })
                }
            };
            if end.is_some() {
                return Ok(turns);
            }
        }
        Err(format!("controller {number} was not told within {limit} turns that were served"))
    }

    fn stranger_appends(&mut self) {
        let id = request_id(self.engine.draw(), 0);
        let changes = vec![Change::Step(0, Step::NAME)];
        let stranger = Request { id, changes, asking: usize::MAX };
        let appended = self.engine.append(Known::NOTHING, &stranger);
        debug_assert!(appended.is_ok());
    }
}
