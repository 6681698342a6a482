//! A single write by the server's faster function: the same answers, refusals and rows as with the function for all
//! requests.

use cindrolf_server_tests::laboratory::Laboratory;
use cindrolf_server_tests::sql_rows::{Chain, after, bytes, write};
use model::random::Random;
use std::collections::BTreeMap;

/// What is asked for, as SQL has it.
struct Asked {
    who: &'static str,
    known: usize,
    chain: Chain,
    id: u64,
    client: i64,
    value: Option<u64>,
    process: String,
    note: String,
}

impl Asked {
    fn value(&self) -> String {
        self.value.map_or("NULL".into(), |value| (value as i64).to_string())
    }

    fn by_append(&self, log: u64) -> String {
        let Asked { known, id, client, process, note, .. } = self;
        let (chain, value) = (bytes(&self.chain), self.value());
        format!(
            "SELECT cindrolf.append({log}, {known}, {chain}, {id}, ARRAY[8]::smallint[], ARRAY[{client}]::bigint[], \
             ARRAY[int8send({value})], {process}, ARRAY[{note}]::text[])"
        )
    }

    fn by_append_write(&self, log: u64) -> String {
        let Asked { known, id, client, process, note, .. } = self;
        let (chain, value) = (bytes(&self.chain), self.value());
        format!("SELECT cindrolf.append_write({log}, {known}, {chain}, {id}, {client}, {value}, {process}, {note})")
    }
}

/// Chooses mostly what is right for one who writes alone, and any of what may be wrong.
fn any(random: &mut Random, chains: &[Chain], ids: &[u64], starts: [u64; 2]) -> Asked {
    let last = chains.len() - 1;
    let own = random.below(3) == 0;
    let (who, client, start) = if own { ("c1", 1, starts[1]) } else { ("c0", 0, starts[0]) };
    let next = (start << 32) + ids.len() as u64;
    let (note, process) = (Some("it''s /1"), Some("lab1"));
    let text = |text: Option<&str>| text.map_or("NULL".into(), |text| format!("'{text}'"));
    let mut asked = Asked {
        who,
        known: last,
        chain: chains[last],
        id: next,
        client,
        value: Some(random.below(u64::MAX)),
        process: text(process.filter(|_| random.chance(80))),
        note: text(note.filter(|_| random.chance(50))),
    };
    match random.below(24) {
        0 => asked.known = last.saturating_sub(1),
        1 => (asked.known, asked.chain) = (last.saturating_sub(1), chains[last.saturating_sub(1)]),
        2 => (asked.known, asked.chain) = (0, chains[0]),
        3 => asked.known = last + 1,
        4 => asked.chain = [7; 16],
        5 | 6 => asked.id = random.pick(ids),
        7 => asked.id = (starts[usize::from(!own)] << 32) + 1_000 + ids.len() as u64,
        8 => asked.id = (99 << 52) + ids.len() as u64,
        9 => asked.client = random.pick(&[-1, -2, 1 - client, 16]),
        10 => asked.who = random.pick(&["not_admitted", "analyst", "election", "administrator"]),
        11 => asked.process = format!("'{}'", "p".repeat(limits::PROCESS_LIMIT + 1)),
        12 => asked.note = format!("'{}'", "n".repeat(limits::NOTE_LIMIT + 1)),
        13 => asked.value = None,
        _ => {}
    }
    asked
}

#[test]
fn a_single_write_is_the_same_by_both_functions() {
    let Some(lab) = Laboratory::of("a_single_write_is_the_same_by_both_functions") else { return };
    let [(one, fresh), (two, _)] = ["one", "two"].map(|name| lab.create(name));
    let starts = ["c0", "c1"].map(|who| lab.start(who, one));
    assert_eq!(["c0", "c1"].map(|who| lab.start(who, two)), starts);
    let (mut random, mut chains, mut ids) = (Random::new(40), vec![fresh], Vec::new());
    let mut met = BTreeMap::<String, u64>::new();
    for turn in 0..160 {
        let asked = match turn {
            0 => Asked { id: starts[0] << 32, ..any(&mut Random::new(1), &chains, &[0], starts) },
            _ => any(&mut random, &chains, &ids, starts),
        };
        let [by_one, by_other] = [asked.by_append(one), asked.by_append_write(two)].map(|statement| {
            let said = lab.cluster.sql_as(asked.who, &statement);
            said.unwrap_or_else(|fault| fault.split(": ").nth(2).unwrap_or(&fault).trim().to_owned())
        });
        assert_eq!(by_one, by_other, "turn {turn}: {}", asked.by_append_write(two));
        let added = by_one.parse() == Ok(chains.len() as i64 - 1) && !ids.contains(&asked.id);
        let kind = if added {
            "added"
        } else if by_one.len() < 5 {
            "answered"
        } else {
            &by_one
        };
        *met.entry(kind.to_owned()).or_default() += 1;
        if added {
            let step = write(asked.client as u64, asked.value.expect("a value"));
            chains.push(after(chains[chains.len() - 1], asked.id, 0, &step));
            ids.push(asked.id);
        }
    }
    let [rows_of_one, rows_of_other] = [one, two].map(|log| {
        let columns = "seq, request, part, kind, client, input, chain, process, note, role, counts";
        lab.ask("analyst", &format!("SELECT {columns} FROM cindrolf.rows WHERE log = {log} ORDER BY seq"))
    });
    assert_eq!(rows_of_one, rows_of_other);
    let last: String = chains[chains.len() - 1].iter().map(|byte| format!("{byte:02x}")).collect();
    assert!(rows_of_other.lines().last().is_some_and(|line| line.contains(&format!("|\\x{last}|"))), "{last}");
    assert_eq!(rows_of_other.lines().count(), ids.len());
    for (kind, least) in [("added", 60), ("answered", 10), ("42501", 5), ("22023", 5)] {
        assert!(met.get(kind).is_some_and(|&times| times >= least), "{met:?}");
    }
}
