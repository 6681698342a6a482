//! The forty logs whose every single-bit change a long run tries: those of every run, and thirty-five more.

use crate::call::{Buffers, Call};
use crate::logs::{self, LEAD, Named, chain_from, fresh_with, marked, take};
use model::Step;
use model::layout::{ENTRY_WORDS, SMALL_ENTRY_WORDS};

/// The logs of every run; a takeover at each stage, in logs of both capacities, empty and full; and seven that are rarer.
pub fn all() -> Vec<Named> {
    let mut all = logs::all();
    for (size, capacity) in [("small", SMALL_ENTRY_WORDS), ("large", ENTRY_WORDS)] {
        let with = |ledgers, entries| chain_from(fresh_with(3, capacity), ledgers, entries);
        all.extend(takeover(with(1, 0), &format!("{size} and empty"), Step::Write(9)));
        all.extend(takeover(with(5, capacity as u64), &format!("{size}, full, of five ledgers"), Step::CloseOwn));
    }
    all.extend([unlisted(), gap(), every_stage(), by_turns(), no_entries(), closed_last(), room_for_one()]);
    all
}

/// The step that client 1 takes next at each stage before it writes, when it takes over from one that writes.
const STAGES: [(&str, Step); 6] = [
    ("waits", Step::Become),
    ("fetches", Step::Fetch),
    ("closes the last", Step::CloseLast),
    ("finishes", Step::Finish),
    ("creates", Step::Create),
    ("appends", Step::Append),
];

/// The log at each stage of a takeover. At the end client 1 writes, and takes the step given.
fn takeover(mut log: Buffers, name: &str, last: Step) -> Vec<Named> {
    take(&mut log, 1, &[Step::Name]);
    let mut all = Vec::new();
    for (stage, step) in STAGES.into_iter().chain([("writes", last)]) {
        all.push(named(format!("{name}, client 1 {stage}"), log.clone(), 1, step));
        take(&mut log, 1, &[step]);
    }
    all
}

fn named(name: impl Into<String>, log: Buffers, client: u64, step: Step) -> Named {
    Named { name: name.into(), buffers: marked(log, 2), step: Call::Step(client, step) }
}

/// Of one client, which has created its first ledger.
fn unlisted() -> Named {
    let mut log = fresh_with(1, SMALL_ENTRY_WORDS);
    take(&mut log, 0, &LEAD[..3]);
    named("a ledger that is not listed", log, 0, Step::Append)
}

/// Client 1 was faster than client 0, whose ledger stays out of the list.
fn gap() -> Named {
    let mut log = fresh_with(2, ENTRY_WORDS);
    take(&mut log, 0, &LEAD[..3]);
    take(&mut log, 1, &[Step::Name]);
    take(&mut log, 1, &LEAD);
    take(&mut log, 1, &[Step::Write(3)]);
    named("a gap in the list", log, 0, Step::Append)
}

/// Of sixteen clients, of which seven are at a stage each. The one that finishes is behind.
fn every_stage() -> Named {
    let mut log = fresh_with(16, SMALL_ENTRY_WORDS);
    take(&mut log, 0, &LEAD);
    take(&mut log, 0, &[Step::Write(1), Step::Write(2)]);
    // Client 5 finds the last ledger closed, so that it creates after three steps.
    for (client, count) in [(1, 1), (2, 2), (3, 3), (4, 5), (5, 3)] {
        take(&mut log, client, &[Step::Name]);
        take(&mut log, client, &STAGES.map(|(_, step)| step)[..count]);
    }
    named("every stage at once", log, 3, Step::Finish)
}

/// Sixteen clients take over from one another: all ledgers but the last were fenced, and the log is half full.
fn by_turns() -> Named {
    let mut log = fresh_with(16, ENTRY_WORDS);
    take(&mut log, 0, &LEAD);
    take(&mut log, 0, &[Step::Write(5); 8]);
    for ledger in 1..255 {
        let client = ledger % 16;
        take(&mut log, client, &[Step::Name]);
        take(&mut log, (ledger - 1) % 16, &[Step::Abdicate]);
        take(&mut log, client, &STAGES.map(|(_, step)| step));
        take(&mut log, client, &[Step::Write(ledger); 8]);
    }
    named("255 ledgers by turns", log, 254 % 16, Step::CloseOwn)
}

fn no_entries() -> Named {
    let log = chain_from(fresh_with(2, SMALL_ENTRY_WORDS), 255, 0);
    named("255 ledgers without an entry", log, 0, Step::CloseOwn)
}

/// Its owner has closed the last ledger after client 1 has fetched it.
fn closed_last() -> Named {
    let mut log = chain_from(fresh_with(2, ENTRY_WORDS), 2, 6);
    take(&mut log, 1, &[Step::Name, Step::Become, Step::Fetch]);
    take(&mut log, 0, &[Step::CloseOwn]);
    named("a last ledger that its owner has closed", log, 1, Step::CloseLast)
}

fn room_for_one() -> Named {
    let log = chain_from(fresh_with(2, ENTRY_WORDS), 2, ENTRY_WORDS as u64 - 1);
    named("room for one entry", log, 0, Step::Write((1 << 52) - 1))
}

#[cfg(test)]
mod tests {
    use super::*;
    use model::layout::{Client, Head, Ledger, client_index, ledger_index, place_index};
    use model::{Answer, words};

    /// What is wrong with logs that should be forty: which are alike, malformed or refuse their step, and which states no log has.
    fn wrong(logs: &[Named]) -> Vec<String> {
        let mut wrong = Vec::new();
        if logs.len() != 40 {
            wrong.push(format!("{} logs", logs.len()));
        }
        for (index, log) in logs.iter().enumerate() {
            let words = |log: &Named| (log.buffers.state.clone(), log.buffers.entries.clone());
            for other in &logs[..index] {
                if other.name == log.name || words(other) == words(log) {
                    wrong.push(format!("{} is {}", log.name, other.name));
                }
            }
            wrong.extend(wrong_by_itself(log));
        }
        let met: Vec<String> = logs.iter().flat_map(states).collect();
        let missing = wanted().into_iter().filter(|state| !met.contains(state));
        wrong.into_iter().chain(missing.map(|state| format!("no log has {state}"))).collect()
    }

    fn wrong_by_itself(log: &Named) -> Option<String> {
        let (mut state, mut entries) = (log.buffers.state.clone(), log.buffers.entries.clone());
        if !words::well_formed(&state, &entries) {
            return Some(format!("{} is not well formed", log.name));
        }
        let Call::Step(client, step) = log.step else { return Some(format!("{} has no step", log.name)) };
        let refused = matches!(words::step(&mut state, &mut entries, client, step), Answer::Refused(_));
        refused.then(|| format!("{} refuses its step", log.name))
    }

    /// The states that have to be there, in logs of each capacity.
    fn wanted() -> Vec<String> {
        let of = |words: usize| {
            let stages = (0..7).map(move |stage| format!("{words} words, a client at stage {stage}"));
            let ledgers = ["open", "recovering", "fenced and closed", "closed"];
            let fills = [0, words as u64].map(|count| format!("{words} words, {count} entries"));
            stages.chain(ledgers.map(|ledger| format!("{words} words, a ledger {ledger}"))).chain(fills)
        };
        [SMALL_ENTRY_WORDS, ENTRY_WORDS].into_iter().flat_map(of).collect()
    }

    /// The states of a log's clients and ledgers, and how full it is.
    fn states(log: &Named) -> Vec<String> {
        let (state, words) = (&log.buffers.state, log.buffers.entries.len());
        let head = Head::load(state[0]).0;
        let clients = (0..head.client_count).map(|client| Client::load(state[client_index(client)]).0.stage);
        let ledgers = (1..head.next_ledger).map(|ledger| Ledger::load(state[ledger_index(ledger)]).0);
        let ledgers = ledgers.map(|ledger| match (ledger.open, ledger.fenced, ledger.recovering) {
            (1, ..) => "open",
            (0, 1, 1) => "recovering",
            (0, 1, _) => "fenced and closed",
            _ => "closed",
        });
        let clients = clients.map(|stage| format!("{words} words, a client at stage {stage}"));
        let ledgers = ledgers.map(|ledger| format!("{words} words, a ledger {ledger}"));
        clients.chain(ledgers).chain([format!("{words} words, {} entries", head.entry_count)]).collect()
    }

    #[test]
    fn forty_logs_of_every_state() {
        assert_eq!(wrong(&all()), Vec::<String>::new());
    }

    #[test]
    fn the_rarer_ones_are_as_they_are_called() {
        let count = |log: Named, state: &str| states(&log).iter().filter(|met| met.ends_with(state)).count();
        for stage in 0..7 {
            assert!(count(every_stage(), &format!(" at stage {stage}")) > 0, "{stage}");
        }
        assert_eq!((count(by_turns(), " fenced and closed"), count(by_turns(), ", 2040 entries")), (254, 1));
        assert_eq!((count(no_entries(), " closed"), count(no_entries(), ", 0 entries")), (254, 1));
        assert_eq!((count(unlisted(), " open"), unlisted().buffers.state[place_index(1)]), (1, 0));
        assert_eq!((count(gap(), " open"), gap().buffers.state[place_index(1)] >> 56), (2, 2));
        assert_eq!((count(closed_last(), " closed"), count(closed_last(), " open")), (2, 0));
        assert_eq!(count(room_for_one(), ", 4095 entries"), 1);
    }

    // What the first test looks for can be found.
    #[test]
    fn finds_wrong_logs() {
        let with = |change: fn(&mut Vec<Named>)| {
            let mut logs = all();
            change(&mut logs);
            wrong(&logs).join("; ")
        };
        assert_eq!(with(|logs| drop(logs.remove(0))), "39 logs");
        assert_eq!(with(|logs| logs[7].name = logs[6].name.clone()), {
            let name = &all()[6].name;
            format!("{name} is {name}")
        });
        assert!(
            with(|logs| logs[7].buffers = logs[6].buffers.clone()).contains(" is small and empty, client 1 fetches")
        );
        assert_eq!(with(|logs| logs[1].buffers.state[1] ^= 1), "one ledger is not well formed");
        assert_eq!(with(|logs| logs[1].step = Call::Step(1, Step::Fetch)), "one ledger refuses its step");
        let five = wrong(&logs::all()).join("; ");
        for state in ["512 words, a client at stage 6", "4096 words, a ledger recovering", "512 words, 0 entries"] {
            assert!(five.contains(&format!("no log has {state}")), "{five}");
        }
    }
}
