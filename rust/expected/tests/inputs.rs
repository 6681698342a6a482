//! The inputs as a whole: every answer that a session can give occurs, and LedgerChaining's invariants hold throughout.

use expected::files::{input, input_names, root};
use expected::grammar::{Session, step};
use expected::log::Log;
use expected::session::{answer, transcript};
use expected::total::output;
use model::source::{Source, Status};
use std::collections::BTreeSet;

/// Every answer that a step can give in a session; no other may come.
const ANSWERS: [(&str, &[&str]); 10] = [
    ("N", &["ok", "ref 3", "ref 4"]),
    ("B", &["ok", "ref 3", "ref 5", "ref 6"]),
    ("A", &["ok", "ref 3", "ref 4", "ref 7"]),
    ("F", &["ok", "ref 3", "ref 7", "ref 8"]),
    ("L", &["ok", "was", "behind", "ref 3", "ref 7", "ref 8"]),
    ("K", &["ok", "behind", "ref 3", "ref 7", "ref 8"]),
    ("C", &["ok", "ref 3", "ref 7", "ref 8", "ref 10"]),
    ("P", &["ok", "behind", "ref 3", "ref 7", "ref 8"]),
    ("W", &["entry", "ref 3", "ref 7", "ref 8", "ref 11", "ref 12"]),
    ("O", &["ok", "behind", "ref 3", "ref 7", "ref 8"]),
];

/// A leader's stages, each with its own steps; each of the others is refused by 8 there.
const OWN_STEPS: [(Status, &str); 6] = [
    (Status::GetMdForClosing, "F"),
    (Status::CloseLastLedger, "L"),
    (Status::PendingCreateLedger, "C"),
    (Status::PendingAppendLedger, "P"),
    (Status::HasOpenLedger, "WO"),
    (Status::FinishLastLedger, "K"),
];

/// Calls this with the letter, the stage before, the answer and the log after, for each good line of every input.
fn each_step(mut seen: impl FnMut(char, Option<Status>, &str, &Source)) {
    for name in input_names().unwrap() {
        let text = input(&name).unwrap();
        let Ok(session) = Session::read(&text) else { continue };
        let mut log = Log::fresh(session.client_count);
        for line in session.lines.into_iter().flatten() {
            if let Some((client, taken)) = step(line) {
                let stage = log.source().c_state.get(client as usize).map(|client| client.status);
                let given = answer(log.step(client, taken));
                seen(line[0] as char, stage, &given, log.source());
            }
        }
    }
}

#[test]
fn every_answer_is_met() {
    let mut met = BTreeSet::new();
    each_step(|letter, _, given, _| {
        let given = if given.starts_with("entry") { "entry" } else { given };
        met.insert((letter.to_string(), given.to_string()));
    });
    let pair = |letter: &str, given: &&str| (letter.to_string(), given.to_string());
    let expected = ANSWERS.iter().flat_map(|(letter, all)| all.iter().map(move |given| pair(letter, given)));
    assert_eq!(met, expected.collect());
}

#[test]
fn every_other_stage_is_met() {
    let mut met = BTreeSet::new();
    each_step(|letter, stage, given, _| {
        if given == "ref 8" {
            met.insert((stage.expect("a known client") as u64, letter));
        }
    });
    let others = |own: &'static str| "FLKCPWO".chars().filter(move |letter| !own.contains(*letter));
    let expected = OWN_STEPS.iter().flat_map(|&(stage, own)| others(own).map(move |letter| (stage as u64, letter)));
    assert_eq!(met, expected.collect());
}

// LedgerChaining's invariants, and the reference's remark that a remembered list is always a first part of the list.
#[test]
fn what_002_keeps() {
    each_step(|letter, _, given, log| {
        if given.starts_with("ref") {
            return;
        }
        assert!(log.c_state.iter().all(|client| log.md_llist.starts_with(&client.llist)));
        assert!(log.md_llist.iter().filter(|id| log.md_ledgers[id].open).count() <= 1);
        let before_last = log.md_llist.iter().rev().skip(1);
        assert!(before_last.map(|id| log.md_ledgers[id]).all(|ledger| !ledger.open && !ledger.recovering));
        if "WP".contains(letter) {
            let newest = log.b_ledgers.iter().flat_map(|(id, stored)| Some((stored.entries.last()?.0, id))).max();
            assert!(newest.is_none_or(|(_, id)| log.md_llist.contains(id)));
        }
    });
}

/// The numbers and the places of the entries in a transcript.
fn positions(text: &str) -> (Vec<usize>, Vec<usize>) {
    let number = |digits: &str| digits.parse::<usize>().unwrap();
    let position = |line: &str| {
        let (entry, place) = line.split_once(" entry ")?.1.split_once(" place ").expect("both are printed");
        Some((number(entry), number(place)))
    };
    text.lines().filter_map(position).unzip()
}

#[test]
fn entries_are_numbered_in_order() {
    for name in input_names().unwrap() {
        let text = transcript(&input(&name).unwrap());
        let (numbers, _) = positions(&text);
        assert!(numbers.iter().copied().eq(0..numbers.len()), "{name}");
        if let Some(chain) = text.lines().last().filter(|line| line.starts_with("chain")) {
            assert_eq!(chain.split(' ').count() - 1, numbers.len(), "{name}");
        }
    }
}

// The run total says how many entries each ledger has; each ledger's are done before the next one's begin.
#[test]
fn places_begin_anew_in_each_ledger() {
    for name in input_names().unwrap() {
        let input = input(&name).unwrap();
        let ledgers = output(&input);
        let counts = ledgers.lines().filter_map(|line| line.split(" entries ").nth(1)?.split(' ').next());
        let places = counts.flat_map(|count| 0..count.parse::<usize>().unwrap());
        assert!(positions(&transcript(&input)).1.into_iter().eq(places), "{name}");
    }
}

// The list names each file once, and a file's name says its size where that is what it is for.
#[test]
fn files() {
    let names = input_names().unwrap();
    let listed: BTreeSet<_> = names.iter().cloned().collect();
    assert_eq!(listed.len(), names.len());
    let folder = std::fs::read_dir(root().join("crates/inputs/data")).unwrap();
    let there: BTreeSet<_> = folder.map(|entry| entry.unwrap().file_name().into_string().unwrap()).collect();
    assert_eq!(listed, there);
    for name in names {
        let size = input(&name).unwrap().len();
        assert!(size <= 20_000, "{name}");
        if let Some(rest) = name.strip_prefix("bytes_") {
            assert_eq!(rest.split('_').next(), Some(size.to_string().as_str()), "{name}");
        }
    }
}
