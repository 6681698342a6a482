//! The frames as JSON for the page's script: tables of words, and for each step numbers that say what it changes.

use crate::escape::json;
use crate::frames::{Frame, Frames, Outcome};
use crate::scene::{Change, Condition, Standing};
use std::collections::HashMap;
use std::fmt::Write;
use std::hash::Hash;

/// Values by the order in which they are met.
struct Table<T>(Vec<T>, HashMap<T, usize>);

impl<T: Copy + Eq + Hash> Table<T> {
    fn new() -> Self {
        Table(Vec::new(), HashMap::new())
    }

    fn place(&mut self, value: T) -> usize {
        *self.1.entry(value).or_insert_with(|| {
            self.0.push(value);
            self.0.len() - 1
        })
    }
}

/// The tables that the steps refer to.
struct Tables {
    standings: Table<Standing>,
    conditions: Table<Condition>,
}

impl Tables {
    /// A change as its number, which the script goes by, and what it is about.
    fn change(&mut self, change: &Change) -> String {
        match change {
            Change::Created(ledger, condition) => format!("[0,{ledger},{}]", self.conditions.place(*condition)),
            Change::Listed(ledger) => format!("[1,{ledger}]"),
            Change::Condition(ledger, from, to) => {
                format!("[2,{ledger},{},{}]", self.conditions.place(*from), self.conditions.place(*to))
            }
            Change::Stored(entry) => format!("[3,{},{},\"{}\"]", entry.ledger, entry.client, entry.value),
            Change::Named(from, to) => format!("[4,{from},{to}]"),
            Change::Standing(client, from, to) => {
                format!("[5,{client},{},{}]", self.standings.place(*from), self.standings.place(*to))
            }
            Change::Blocked(entry) => format!("[6,{},{},\"{}\"]", entry.ledger, entry.client, entry.value),
        }
    }

    fn changes(&mut self, changes: &[Change]) -> String {
        let changes: Vec<_> = changes.iter().map(|change| self.change(change)).collect();
        format!("[{}]", changes.join(","))
    }

    /// A step as its client, its mark, its outcome, its changes, and those of rows before it that are not shown, if there
    /// are any. A bad line is 0. What no client has done is done by the client of number -1, which has no lane.
    fn step(&mut self, frame: &Frame) -> String {
        if frame.outcome == Outcome::BadLine {
            return "0".into();
        }
        let client = frame.client.map_or("-1".into(), |client| client.to_string());
        let hidden = self.changes(&frame.hidden);
        let hidden = if frame.hidden.is_empty() { String::new() } else { format!(",{hidden}") };
        let changes = self.changes(&frame.changes);
        let outcome = OUTCOMES.iter().position(|&outcome| outcome == frame.outcome).unwrap_or(0);
        format!("[{client},{},{outcome},{changes}{hidden}]", json(&frame.mark))
    }
}

/// The outcomes, by their numbers in the data.
const OUTCOMES: [Outcome; 4] = [Outcome::BadLine, Outcome::Taken, Outcome::Behind, Outcome::Refused];

/// All that the script needs.
pub fn data(frames: &Frames) -> String {
    let mut tables = Tables { standings: Table::new(), conditions: Table::new() };
    let clients: Vec<_> =
        frames.start.clients.iter().map(|&client| tables.standings.place(client).to_string()).collect();
    let begin = tables.changes(&frames.begin);
    let steps: Vec<_> = frames.frames.iter().map(|frame| tables.step(frame)).collect();
    let mut text = format!("{{\"named\":{},\"clients\":[{}]", frames.start.named, clients.join(","));
    if frames.part.is_some() {
        let rows: Vec<_> = (1..).zip(&frames.frames).map(|(place, frame)| frame.number(place).to_string()).collect();
        let _ = write!(text, ",\"begin\":{begin},\"rows\":[{}]", rows.join(","));
    }
    let standings = tables
        .standings
        .0
        .iter()
        .map(|at| format!("[{},{},{}]", json(at.short()), json(&at.text()), json(at.classes())));
    let conditions = tables.conditions.0.iter().map(|at| format!("[{},{}]", json(at.text()), json(&at.classes())));
    let outcomes = OUTCOMES.map(|outcome| json(outcome.class()));
    let _ = write!(text, ",\"outcomes\":[{}],\"leader\":\"named\",\"blocked\":\"refused\"", outcomes.join(","));
    let _ = write!(text, ",\"standings\":[{}]", standings.collect::<Vec<_>>().join(","));
    let _ = write!(text, ",\"conditions\":[{}]", conditions.collect::<Vec<_>>().join(","));
    let _ = write!(text, ",\"steps\":[{}]}}", steps.join(","));
    text
}
