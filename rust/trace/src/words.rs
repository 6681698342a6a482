//! The words of the picture: stages, ledgers and changes as text.

use crate::frames::Outcome;
use crate::scene::{Change, Condition, Standing};
use cindrolf::Stage;

impl Standing {
    /// The names by which the style tells the stages apart.
    pub fn classes(&self) -> &'static str {
        match self.stage {
            Stage::Waiting => "idle",
            Stage::Writing if self.fenced => "write cut",
            Stage::Writing => "write",
            _ => "",
        }
    }

    /// The stage's name, for a place in a lane. A client that does not lead has none.
    pub fn short(&self) -> &'static str {
        if self.stage == Stage::Waiting { "" } else { self.stage.name() }
    }

    /// What the client does there.
    pub fn text(&self) -> String {
        let ledger = self.ledger.map_or("a ledger".into(), |number| format!("ledger {number}"));
        match self.stage {
            Stage::Waiting => "does not lead".into(),
            Stage::Fetching => "fetches the list next".into(),
            Stage::ClosingLast => format!("fences {ledger} next"),
            Stage::Creating => "creates a ledger next".into(),
            Stage::Appending => format!("appends {ledger} next"),
            Stage::Writing if self.fenced => format!("writes to fenced {ledger}"),
            Stage::Writing => format!("writes to {ledger}"),
            Stage::Finishing => format!("closes {ledger} next"),
        }
    }
}

impl Condition {
    /// What the ledger is.
    pub fn text(&self) -> &'static str {
        match (self.recovering, self.open, self.fenced) {
            (true, _, _) => "fenced, recovering",
            (false, true, false) => "open",
            (false, true, true) => "fenced, open",
            (false, false, true) => "fenced, closed",
            (false, false, false) => "closed",
        }
    }

    /// The names by which the style tells ledgers apart.
    pub fn classes(&self) -> String {
        let kind = match (self.recovering, self.open) {
            (true, _) => "recovering",
            (false, true) => "open",
            (false, false) => "closed",
        };
        if self.fenced { format!("{kind} fenced") } else { kind.into() }
    }
}

impl Outcome {
    /// The name by which the style tells what is not simply taken.
    pub fn class(self) -> &'static str {
        match self {
            Outcome::Taken => "",
            Outcome::Behind => "behind",
            Outcome::Refused => "refused",
            Outcome::BadLine => "bad",
        }
    }
}

impl Change {
    /// The change as a sentence. What was only tried changes nothing, and has none.
    pub fn text(&self) -> Option<String> {
        match self {
            Change::Created(ledger, _) => Some(format!("ledger {ledger} is created")),
            Change::Listed(ledger) => Some(format!("ledger {ledger} is listed")),
            Change::Condition(ledger, _, now) => Some(format!("ledger {ledger} is {}", now.text())),
            Change::Stored(entry) => Some(format!("{} is stored in ledger {}", entry.value, entry.ledger)),
            Change::Named(_, client) => Some(format!("client {client} is the named leader")),
            Change::Standing(client, _, now) => Some(format!("client {client} {}", now.text())),
            Change::Blocked(_) => None,
        }
    }
}
