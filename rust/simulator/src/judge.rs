//! Compares what controllers were told with the rows and the model. It uses neither the kernel nor the library.

use crate::change::Change;
use crate::controller::{Controller, End};
use crate::row::{Row, requests};
use crate::truth::{Truth, refused};
use cindrolf::Kind;
use model::Answer;
use std::hash::{DefaultHasher, Hash, Hasher};

/// What a promise is broken by.
pub type Breach = String;

/// An asking, and what became of it.
struct Asking {
    controller: usize,
    changes: Vec<Change>,
    time: u64,
    /// How many rows there were.
    rows: usize,
    /// Whether the engine lost rows before it ended.
    spans_a_loss: bool,
    end: Option<Ended>,
}

struct Ended {
    end: End,
    time: u64,
    rows: usize,
    /// Whether the rows that it was judged by are gone: the engine lost them afterwards.
    gone: bool,
}

/// A request in the rows: its place, its asking, and how the model answers its steps.
struct Placed {
    place: usize,
    asking: usize,
    answers: Vec<Answer>,
}

/// What it has seen.
pub struct Judge {
    clients: u64,
    time: u64,
    losses: u64,
    askings: Vec<Asking>,
    /// The marks of the first rows of the engine, none first.
    marks: Vec<u64>,
}

/// How many of each there were.
#[derive(Clone, Copy, Debug, Default, PartialEq, Eq)]
pub struct Counts {
    /// Rows.
    pub rows: u64,
    /// Askings that were told.
    pub told: u64,
    /// Single steps that were refused in their place.
    pub refused_in_place: u64,
    /// Askings that were refused without a row.
    pub denied: u64,
    /// Requests that were sent, and that nobody waits for any more.
    pub forgotten: u64,
}

/// The mark of one row more than `before`: another way than the chain value to tell lists of rows apart. It uses nothing
/// of the bytes of a row, so that it tells rows apart whose bytes are the same.
pub fn known_mark(before: u64, id: u64, index: u32, change: Change) -> u64 {
    let mut hasher = DefaultHasher::new();
    (before, id, index, change).hash(&mut hasher);
    hasher.finish()
}

impl Judge {
    /// One that has seen nothing, of a log of so many clients.
    pub fn new(clients: u64) -> Judge {
        Judge { clients, time: 0, losses: 0, askings: vec![], marks: vec![0] }
    }

    /// Time goes on.
    pub fn tick(&mut self) {
        self.time += 1;
    }

    /// A value that nobody was asked to write, with room for more of one request after it.
    pub fn next_value(&self) -> u64 {
        16 * self.askings.len() as u64
    }

    /// A controller is asked. The number of the asking.
    pub fn ask(&mut self, controller: usize, changes: &[Change], rows: usize) -> usize {
        let (time, changes) = (self.time, changes.to_vec());
        self.askings.push(Asking { controller, changes, time, rows, spans_a_loss: false, end: None });
        self.askings.len() - 1
    }

    /// An asking ends.
    pub fn end(&mut self, asking: usize, end: End, rows: usize) -> Result<(), Breach> {
        let ended = Ended { end, time: self.time, rows, gone: false };
        match self.askings[asking].end.replace(ended) {
            None => Ok(()),
            Some(_) => Err(format!("asking {asking} was told twice")),
        }
    }

    /// The engine has served a call of a controller that knows so many rows, with this mark.
    pub fn served(&mut self, known: usize, mark: u64, rows: &[Row]) -> Result<(), Breach> {
        for row in &rows[self.marks.len() - 1..] {
            let before = self.marks[self.marks.len() - 1];
            self.marks.push(known_mark(before, row.id, row.index, row.change));
        }
        match self.marks.get(known) {
            Some(&there) if there == mark => Ok(()),
            _ => Err(format!("a controller that knows {known} rows was served from another history")),
        }
    }

    /// The engine keeps only the first rows. What it held until now is judged first.
    pub fn lose(&mut self, rows: &[Row], kept: usize, controllers: &[Controller]) -> Result<(), Breach> {
        self.check(rows, controllers)?;
        self.losses += 1;
        self.marks.truncate(kept + 1);
        for asking in &mut self.askings {
            match &mut asking.end {
                None => asking.spans_a_loss = true,
                Some(Ended { end: End::Told(place, _), gone, .. }) => *gone |= *place >= kept,
                Some(Ended { gone, .. }) => *gone = true,
            }
        }
        Ok(())
    }

    /// Holds all that was told against the rows that there are.
    pub fn check(&mut self, rows: &[Row], controllers: &[Controller]) -> Result<Counts, Breach> {
        self.served(0, 0, rows)?;
        let placed = self.walk(rows, controllers)?;
        self.rows_are_accounted(&placed, controllers)?;
        self.told_is_replay(&placed)?;
        self.no_row(&placed)?;
        self.order(&placed)?;
        Ok(self.counts(rows, &placed))
    }

    /// Takes all rows by the model. On the way each copy is compared, and each refusal without a row is looked for.
    fn walk(&self, rows: &[Row], controllers: &[Controller]) -> Result<Vec<Placed>, Breach> {
        let (mut truth, mut placed, mut accepted) = (Truth::fresh(self.clients), Vec::new(), Vec::new());
        let mut open: Vec<usize> = (0..self.askings.len()).filter(|&asking| self.is_to_be_justified(asking)).collect();
        let mut place = 0;
        for request in requests(rows) {
            self.moment(place, &truth, &mut open, controllers)?;
            let answers: Vec<Answer> = request.iter().map(|row| truth.take(row.change)).collect();
            accepted.extend(request.iter().zip(&answers).filter_map(|(row, &answer)| written(row.change, answer)));
            placed.push(Placed { place, asking: request[0].asking, answers });
            place += request.len();
        }
        self.moment(place, &truth, &mut open, controllers)?;
        if let Some(asking) = open.first() {
            return Err(format!("asking {asking} was refused without a row, and at no moment of it was that right"));
        }
        if truth.chain() != accepted {
            return Err("the chain reading is not the accepted writes in their order".into());
        }
        Ok(placed)
    }

    /// What is compared at a moment of the walk, after so many rows.
    fn moment(
        &self,
        place: usize,
        truth: &Truth,
        open: &mut Vec<usize>,
        controllers: &[Controller],
    ) -> Result<(), Breach> {
        for (number, controller) in controllers.iter().enumerate().filter(|(_, of)| of.known() == place) {
            if controller.mark() == self.marks[place] {
                if controller.replica().words() != truth.words() {
                    return Err(format!("the copy of controller {number} is not what the first {place} rows come to"));
                }
            } else if self.losses == 0 {
                return Err(format!("controller {number} knows other rows than the first {place}"));
            }
        }
        open.retain(|&asking| !self.is_right(asking, place, truth));
        Ok(())
    }

    /// Whether an asking was refused without a row, so that this has to be right at some moment. One during which rows
    /// were lost is not judged: the moment may be one of a history that is gone.
    fn is_to_be_justified(&self, asking: usize) -> bool {
        let Asking { end, spans_a_loss, .. } = &self.askings[asking];
        !spans_a_loss && matches!(end, Some(Ended { end: End::Denied(_), gone: false, .. }))
    }

    /// Whether a refusal without a row is right after so many rows.
    fn is_right(&self, asking: usize, place: usize, truth: &Truth) -> bool {
        let Asking { changes, rows, end, .. } = &self.askings[asking];
        let Some(Ended { end: End::Denied(answers), rows: until, .. }) = end else { return false };
        let mut then = truth.clone();
        (*rows..=*until).contains(&place)
            && changes.iter().zip(answers).all(|(&change, &answer)| refused(answer) && then.take(change) == answer)
    }

    /// Each request in the rows was asked for so, and was told, is waited for, or was forgotten. No asking has two.
    fn rows_are_accounted(&self, placed: &[Placed], controllers: &[Controller]) -> Result<(), Breach> {
        let mut seen = vec![false; self.askings.len()];
        for &Placed { place, asking, .. } in placed {
            if std::mem::replace(&mut seen[asking], true) {
                return Err(format!("asking {asking} has two rows, the second at {place}"));
            }
            let of = &self.askings[asking];
            let controller = &controllers[of.controller];
            match &of.end {
                Some(Ended { end: End::Told(..) | End::Forgotten, .. }) => {}
                None if controller.asking() == Some(asking) && controller.waits() => {}
                _ => return Err(format!("nobody accounts for the row at {place}, of asking {asking}")),
            }
        }
        Ok(())
    }

    /// What was told is what the model answers at the request's own place. What the engine lost is not there any more.
    fn told_is_replay(&self, placed: &[Placed]) -> Result<(), Breach> {
        for (asking, of) in self.askings.iter().enumerate() {
            let Some(Ended { end: End::Told(place, answers), gone: false, .. }) = &of.end else { continue };
            let there = placed.iter().find(|there| there.place == *place && there.asking == asking);
            let there = there.ok_or_else(|| format!("asking {asking} was told place {place}, which is not its own"))?;
            if there.answers != *answers {
                let is = &there.answers;
                return Err(format!("asking {asking} was told {answers:?}, and the replay gives {is:?} at {place}"));
            }
            if *place < of.rows && !of.spans_a_loss {
                return Err(format!("asking {asking} was told a place of before it was asked"));
            }
        }
        Ok(())
    }

    /// What was refused or withdrawn has no row.
    fn no_row(&self, placed: &[Placed]) -> Result<(), Breach> {
        for &Placed { place, asking, .. } in placed {
            if let Some(Ended { end: End::Denied(_) | End::Withdrawn, .. }) = self.askings[asking].end {
                return Err(format!("asking {asking} was told that it has no row, and has one at {place}"));
            }
        }
        Ok(())
    }

    /// What was told before another was asked for comes before it.
    fn order(&self, placed: &[Placed]) -> Result<(), Breach> {
        let mut earliest = u64::MAX;
        for &Placed { place, asking, .. } in placed.iter().rev() {
            let of = &self.askings[asking];
            let Some(Ended { end: End::Told(..), gone: false, time, .. }) = of.end else { continue };
            if earliest < of.time {
                return Err(format!("asking {asking} has place {place}, before what was told before it was asked"));
            }
            earliest = earliest.min(time);
        }
        Ok(())
    }

    fn counts(&self, rows: &[Row], placed: &[Placed]) -> Counts {
        let ended = |wanted: fn(&End) -> bool| {
            self.askings.iter().filter(|of| of.end.as_ref().is_some_and(|ended| wanted(&ended.end))).count() as u64
        };
        let refused_in_place = placed.iter().flat_map(|there| &there.answers).filter(|&&answer| refused(answer));
        Counts {
            rows: rows.len() as u64,
            told: ended(|end| matches!(end, End::Told(..))),
            refused_in_place: refused_in_place.count() as u64,
            denied: ended(|end| matches!(end, End::Denied(_))),
            forgotten: ended(|end| matches!(end, End::Forgotten)),
        }
    }
}

/// The word of the chain reading that an accepted write adds.
fn written(change: Change, answer: Answer) -> Option<u64> {
    let Answer::Entry { .. } = answer else { return None };
    match change {
        Change::Step(client, step) if step.kind() == Kind::Write => Some((client << 52) + step.value()),
        Change::WriteScores(client, scores) => Some((client << 52) + model::scores::sum(scores).ok()?),
        _ => None,
    }
}
