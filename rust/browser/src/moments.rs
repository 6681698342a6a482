//! What a page must show after each step: lines and replies from the session program's output, the log from the model.

use expected::grammar::{Session, step};
use expected::log::Log;
use model::Step;
use model::sentences;
use model::source::{Metadata, Source, Status};

/// What is to be seen at one place of the session.
#[derive(Clone, Debug, Default, PartialEq, Eq)]
pub struct Moment {
    /// The line; nothing at the start.
    pub line: String,
    /// The reply.
    pub reply: String,
    /// The refusal's sentence, where the step is refused.
    pub sentence: Option<String>,
    /// The client that the line names, and what its mark says.
    pub mark: Option<(u64, String)>,
    /// The named leader.
    pub named: u64,
    /// What each client does.
    pub clients: Vec<String>,
    /// The word of each client in its lane.
    pub words: Vec<String>,
    /// The listed ledgers, each with its state and entries.
    pub chain: Vec<String>,
    /// Those that are not listed.
    pub unlisted: Vec<String>,
    /// The entry that was refused at a ledger.
    pub blocked: Option<String>,
}

/// The whole of a session.
pub struct Moments {
    /// The start, and then each step.
    pub all: Vec<Moment>,
    /// The chain, the total and the rounded total.
    pub results: [String; 3],
    /// The row of each step, where the page is of a log.
    pub rows: Option<Vec<usize>>,
}

impl Moments {
    /// Those of a log's page that begins before a row, with the rows of all clients or of one. The log has a row for each
    /// line of the session.
    pub fn of_rows(self, from: usize, client: Option<u64>) -> Moments {
        let mut all = self.all;
        let shown = |moment: &Moment| client.is_none() || moment.mark.as_ref().map(|(of, _)| *of) == client;
        let rows: Vec<usize> = (from..all.len()).filter(|&row| shown(&all[row])).collect();
        let before = all[from - 1].clone();
        let start =
            Moment { line: String::new(), reply: "start".into(), sentence: None, mark: None, blocked: None, ..before };
        all = std::iter::once(start).chain(rows.iter().map(|&row| all[row].clone())).collect();
        Moments { all, rows: Some(rows), ..self }
    }

    /// The number by which a step is shown.
    pub fn number(&self, step: usize) -> usize {
        self.rows.as_ref().map_or(step, |rows| rows[step - 1])
    }
}

/// The moments of a session, with what the two programs print for it. None where it is no session.
pub fn moments(input: &[u8], transcript: &str, total: &str) -> Option<Moments> {
    let session = Session::read(input).ok()?;
    let mut log = Log::fresh(session.client_count);
    let mut all = vec![Moment { reply: "start".into(), ..seen(log.source()) }];
    let raw: Vec<&[u8]> = input.split_inclusive(|&byte| byte == b'\n').skip(1).collect();
    let mut printed = transcript.lines();
    for ((place, line), raw) in (1..).zip(session.lines).zip(raw) {
        let taken = line.and_then(step);
        if let Some((client, step)) = taken {
            log.step(client, step);
        }
        let reply = printed.next()?.strip_prefix(&format!("{place} "))?;
        let line = visible(raw.strip_suffix(b"\n").unwrap_or(raw));
        let mark = taken.map(|(client, step)| (client, mark(&line, step)));
        let refused = reply.strip_prefix("ref ").and_then(|number| number.parse().ok());
        let sentence =
            refused.zip(taken).map(|(number, (client, step))| sentences::sentence(number_of(step), client, number));
        let reply = if sentence.is_some() { format!("refused: {reply}") } else { reply.into() };
        let blocked =
            taken.filter(|_| sentence.is_some()).and_then(|(client, step)| blocked(log.source(), client, step));
        all.push(Moment { line, reply, sentence, mark, blocked, ..seen(log.source()) });
    }
    let mut totals = total.lines().rev();
    let (rounded, total) = (totals.next()?.into(), totals.next()?.into());
    Some(Moments { all, results: [printed.next()?.into(), total, rounded], rows: None })
}

/// All bytes but printable ASCII by their numbers, and a doubled backslash. The inputs have no letters beyond ASCII.
fn visible(bytes: &[u8]) -> String {
    let shown = |&byte: &u8| match byte {
        b'\\' => r"\\".into(),
        b' '..=b'~' => (byte as char).to_string(),
        _ => format!(r"\x{byte:02x}"),
    };
    bytes.iter().map(shown).collect()
}

fn number_of(step: Step) -> u64 {
    match step {
        Step::Name => 0,
        Step::Become => 1,
        Step::Abdicate => 2,
        Step::Fetch => 3,
        Step::CloseLast => 4,
        Step::Finish => 5,
        Step::Create => 6,
        Step::Append => 7,
        Step::Write(_) => 8,
        Step::CloseOwn => 9,
        other => panic!("no line has {other:?}"),
    }
}

fn mark(line: &str, step: Step) -> String {
    match step {
        Step::Write(value) if value < 1000 => format!("W {value}"),
        _ => line[..1].into(),
    }
}

fn blocked(log: &Source, client: u64, step: Step) -> Option<String> {
    let Step::Write(value) = step else { return None };
    let writes = log.c_state.get(client as usize)?.status == Status::HasOpenLedger;
    writes.then(|| format!("{client}:{value}"))
}

fn is_fenced(log: &Source, ledger: u64) -> bool {
    log.b_ledgers.get(&ledger).is_some_and(|ledger| ledger.fenced)
}

fn seen(log: &Source) -> Moment {
    let (clients, words) = log.c_state.iter().map(|client| stage(log, client.status, client.ledger.id)).unzip();
    let is_listed = |number: &&u64| log.md_llist.contains(number);
    Moment {
        named: log.md_leader,
        clients,
        words,
        chain: log.md_llist.iter().map(|number| ledger(log, &log.md_ledgers[number])).collect(),
        unlisted: log
            .md_ledgers
            .iter()
            .filter(|(number, _)| !is_listed(number))
            .map(|(_, of)| ledger(log, of))
            .collect(),
        ..Moment::default()
    }
}

/// What a client does at its status, and the word in its lane.
fn stage(log: &Source, status: Status, ledger: u64) -> (String, String) {
    let (text, word) = match status {
        Status::Waiting => ("does not lead".into(), ""),
        Status::GetMdForClosing => ("fetches the list next".into(), "fetching"),
        Status::CloseLastLedger => (format!("fences ledger {ledger} next"), "closing last"),
        Status::PendingCreateLedger => ("creates a ledger next".into(), "creating"),
        Status::PendingAppendLedger => (format!("appends ledger {ledger} next"), "appending"),
        Status::HasOpenLedger if is_fenced(log, ledger) => (format!("writes to fenced ledger {ledger}"), "writing"),
        Status::HasOpenLedger => (format!("writes to ledger {ledger}"), "writing"),
        Status::FinishLastLedger => (format!("closes ledger {ledger} next"), "finishing"),
    };
    (text, word.into())
}

/// A ledger with its state and its entries.
fn ledger(log: &Source, of: &Metadata) -> String {
    let state = match (of.recovering, of.open, is_fenced(log, of.id)) {
        (true, _, _) => "fenced, recovering",
        (false, true, _) => "open",
        (false, false, true) => "fenced, closed",
        (false, false, false) => "closed",
    };
    let entries = log.b_ledgers.get(&of.id).map_or(&[][..], |ledger| &ledger.entries);
    let entries: String = entries.iter().map(|(_, client, value)| format!(" {client}:{value}")).collect();
    format!("ledger {} {state}{entries}", of.id)
}
