//! What a log shows at one moment, and what a step has changed.

use cindrolf::{EntryNumber, LedgerNumber, Stage, View};

/// Where a client stands: its stage, and the ledger that the stage is about.
#[derive(Clone, Copy, Debug, PartialEq, Eq, Hash)]
pub struct Standing {
    /// The stage.
    pub stage: Stage,
    /// The ledger that it fences, closes, appends or writes to.
    pub ledger: Option<u64>,
    /// Whether it writes to a ledger that another leader has fenced.
    pub fenced: bool,
}

/// How a ledger is stored.
#[derive(Clone, Copy, Debug, PartialEq, Eq, Hash)]
pub struct Condition {
    /// Whether it is open.
    pub open: bool,
    /// Whether another leader has fenced it.
    pub fenced: bool,
    /// Whether it is fenced and not yet closed.
    pub recovering: bool,
}

/// An entry as it is drawn.
#[derive(Clone, Copy, Debug, PartialEq, Eq)]
pub struct Drawn {
    /// The ledger that it is in.
    pub ledger: u64,
    /// The client that wrote it.
    pub client: u64,
    /// The value.
    pub value: u64,
}

/// All that is shown of a log.
#[derive(Clone, Debug, PartialEq, Eq)]
pub struct Scene {
    /// The named leader.
    pub named: u64,
    /// Where each client stands, from client 0.
    pub clients: Vec<Standing>,
    /// The ledgers that are created, from ledger 1.
    pub ledgers: Vec<Condition>,
    /// The listed ledgers, in the order of the list.
    pub list: Vec<u64>,
    /// How many entries there are.
    pub entry_count: u64,
}

/// One thing that a step has changed, or in the last case has tried to.
#[derive(Clone, Copy, Debug, PartialEq, Eq)]
pub enum Change {
    /// A ledger is created.
    Created(u64, Condition),
    /// A ledger is put at the end of the list.
    Listed(u64),
    /// A ledger was one thing and is another.
    Condition(u64, Condition, Condition),
    /// An entry is stored.
    Stored(Drawn),
    /// One client was the named leader, and another is.
    Named(u64, u64),
    /// A client stood at one place and stands at another.
    Standing(u64, Standing, Standing),
    /// An entry was refused, at the ledger that its client writes to.
    Blocked(Drawn),
}

impl Scene {
    /// What this log shows.
    pub fn of(view: View<'_>) -> Self {
        let clients = view.clients().map(|client| {
            let about = !matches!(client.stage, Stage::Waiting | Stage::Fetching | Stage::Creating);
            let ledger = client.ledger.filter(|_| about).map(|ledger| ledger.number);
            let stored = ledger.filter(|_| client.stage == Stage::Writing).and_then(|number| view.ledger(number));
            let fenced = stored.is_some_and(|ledger| ledger.fenced);
            Standing { stage: client.stage, ledger: ledger.map(|number| number.0), fenced }
        });
        let ledgers = (1..).map_while(|number| view.ledger(LedgerNumber(number))).map(|ledger| Condition {
            open: ledger.open,
            fenced: ledger.fenced,
            recovering: ledger.recovering,
        });
        Scene {
            named: view.named_leader(),
            clients: clients.collect(),
            ledgers: ledgers.collect(),
            list: view.list().map(|ledger| ledger.0).collect(),
            entry_count: view.entry_count(),
        }
    }

    /// What leads to this scene from a log without ledgers.
    pub fn made_of(&self, view: View<'_>) -> Vec<Change> {
        let empty = Scene { ledgers: Vec::new(), list: Vec::new(), entry_count: 0, ..self.clone() };
        empty.changes(self, view)
    }

    /// What has changed since this scene, which a step has left as `after` on this log.
    pub fn changes(&self, after: &Scene, view: View<'_>) -> Vec<Change> {
        let mut changes = Vec::new();
        for (number, &condition) in (1..).zip(&after.ledgers) {
            match self.ledgers.get(number as usize - 1) {
                None => changes.push(Change::Created(number, condition)),
                Some(&before) if before != condition => changes.push(Change::Condition(number, before, condition)),
                Some(_) => {}
            }
        }
        changes.extend(after.list[self.list.len()..].iter().map(|&ledger| Change::Listed(ledger)));
        let stored = self.entry_count..after.entry_count;
        changes.extend(
            stored.filter_map(|number| view.entry(EntryNumber(number))).map(|entry| {
                Change::Stored(Drawn { ledger: entry.ledger.0, client: entry.client, value: entry.value })
            }),
        );
        if self.named != after.named {
            changes.push(Change::Named(self.named, after.named));
        }
        for (client, (&before, &now)) in (0..).zip(self.clients.iter().zip(&after.clients)) {
            if before != now {
                changes.push(Change::Standing(client, before, now));
            }
        }
        changes
    }
}
