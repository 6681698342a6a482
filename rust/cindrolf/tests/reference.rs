//! The reference's table of steps, beside the crate's kinds and the orders of checks that are proved; and its table of
//! refusals, which says of each step what the table of steps says.

use cindrolf::{Kind, Log, Refusal, Stage, calls};
use std::collections::BTreeSet;

const REFERENCE: &str = include_str!("../../../docs/REFERENCE.md");
const ORDERS: &str = include_str!("../../../crates/chain/specs/OrderPromise.antt");

/// The rows of the table below this heading whose first column is called so, without its head.
fn table(heading: &str, first: &str) -> Vec<Vec<&'static str>> {
    let (_, section) = REFERENCE.split_once(&format!("\n{heading}\n")).expect("the section");
    let section = section.split("\n## ").next().expect("its text");
    let lines = section.lines().skip_while(|line| !line.starts_with(&format!("| {first} |")));
    let rows = lines.take_while(|line| line.starts_with('|')).skip(2);
    rows.map(|row| row.trim_matches('|').split('|').map(str::trim).collect()).collect()
}

/// A row of the table of steps. The write of scores has neither a number nor a letter.
struct Step {
    number: &'static str,
    letter: &'static str,
    name: &'static str,
    right: &'static str,
    stage: &'static str,
    checks: Vec<u64>,
    answers: Vec<&'static str>,
}

fn steps() -> Vec<Step> {
    let step = |row: Vec<&'static str>| match row[..] {
        [number, letter, name, right, stage, checks, answers] => {
            let checks = checks.split(", ").map(|check| check.parse().expect(checks)).collect();
            Step { number, letter, name, right, stage, checks, answers: answers.split(", ").collect() }
        }
        _ => panic!("no row of seven columns: {row:?}"),
    };
    table("## The steps", "Number").into_iter().map(step).collect()
}

#[test]
fn the_steps_are_the_kinds() {
    let mut steps = steps();
    let scores = steps.remove(9);
    assert_eq!((scores.number, scores.letter, scores.name), ("", "", "write scores"));
    assert_eq!((scores.right, scores.stage), (steps[8].right, steps[8].stage));
    assert_eq!(steps.len(), Kind::ALL.len());
    for (step, kind) in steps.iter().zip(Kind::ALL) {
        assert_eq!((step.number, step.letter), (&*kind.number().to_string(), &*kind.letter().to_string()));
        assert_eq!(step.name, kind.name());
    }
}

#[test]
fn the_rights_are_the_bits() {
    for step in steps() {
        let kind = Kind::ALL.into_iter().rfind(|kind| step.name.starts_with(kind.name())).expect(step.name);
        let bit = step.right.strip_prefix("bit ").expect("a bit").parse::<u32>().expect("its number");
        assert_eq!(kind.bit(), 1 << bit, "{}", step.name);
    }
}

// A named leader at each stage that remembers no ledger is advised the step of its stage: at 5 it is the write.
#[test]
fn the_stages_are_those_of_the_adviser() {
    let names: Vec<_> =
        Stage::ALL.iter().zip(0..).map(|(stage, number)| format!("{number} {}", stage.name())).collect();
    let text = REFERENCE.replace('\n', " ");
    let (last, first) = names.split_last().expect("seven stages");
    assert!(text.contains(&format!("The stages are {} and {last};", first.join(", "))));
    let log = Log::fresh(1).unwrap();
    for (stage, number) in Stage::ALL.iter().zip(0_u64..) {
        let mut state = log.state().to_vec();
        state[1] |= u64::from(number > 0) << 63 | number << 60;
        let advised = calls::advise(&state, log.entries(), 0).unwrap().expect("a step").name();
        let step = steps().into_iter().find(|step| step.stage == number.to_string()).expect("a step of this stage");
        assert_eq!(step.name, advised, "{}", stage.name());
    }
    let (any, leading): (Vec<_>, Vec<_>) =
        steps().into_iter().filter(|step| step.stage.parse::<u64>().is_err()).partition(|step| step.stage == "any");
    assert_eq!((any.len(), any[0].name, leading.len(), leading[0].name), (1, "name", 1, "abdicate"));
}

/// The name that the specification gives a step.
fn specified(name: &str) -> &str {
    match name {
        "close last" => "close_last",
        "close own" => "close_own",
        "write" => "(write (of_value v))",
        "write scores" => "(write (of_scores qs))",
        name => name,
    }
}

// The specification has 1 and 2 twice, for the log and for the rights, and 11 at a write of scores, which never gives it.
#[test]
fn the_checks_are_those_that_are_proved() {
    let steps = steps();
    assert_eq!(steps.len(), 11);
    for step in steps {
        let start = format!("step_numbers {} = ", specified(step.name));
        let line = ORDERS.lines().find_map(|line| line.strip_prefix(&start)).expect(&start);
        let order = line.strip_suffix(" ∷ []").expect(line).split(" ∷ ").map(|check| check.parse().expect(line));
        let mut order: Vec<u64> = order.collect();
        order.dedup();
        order.retain(|&check| check != 11 || step.name != "write scores");
        assert_eq!(step.checks, order, "{}", step.name);
    }
}

/// The steps that a refusal is given by: those that are named, or all, or all but those that are named.
fn givers(cell: &str, names: &BTreeSet<&'static str>) -> BTreeSet<&'static str> {
    let named = names.iter().copied().filter(|name| cell.contains(&format!("`{name}`"))).collect::<BTreeSet<_>>();
    match cell {
        _ if cell.contains("every step but ") => names - &named,
        _ if cell.contains("every step") => names.clone(),
        _ => named,
    }
}

#[test]
fn both_tables_agree() {
    let steps = steps();
    let names: BTreeSet<_> = steps.iter().map(|step| step.name).collect();
    let refusals = table("## The refusals", "Number");
    assert_eq!(refusals.len(), Refusal::ALL.len());
    for row in refusals {
        let [number, name, _, condition, given_by, what_to_do] = row[..] else {
            panic!("no row of six columns: {row:?}")
        };
        let number: u64 = number.parse().unwrap();
        let checking: BTreeSet<_> =
            steps.iter().filter(|step| step.checks.contains(&number)).map(|step| step.name).collect();
        assert_eq!(givers(given_by, &names), checking, "{number} {name}");
        assert!([condition, given_by, what_to_do].iter().all(|cell| !cell.is_empty()), "{number} {name}");
    }
}

// The table of effects has a row for each answer of each step, and no other.
#[test]
fn the_effects_have_the_answers() {
    let effects = table("### Which words change", "Step");
    for step in steps() {
        let rows = effects.iter().filter(|row| row[0].split(", ").any(|name| name == step.name));
        let found: BTreeSet<_> = rows.map(|row| row[2]).collect();
        assert_eq!(found, step.answers.iter().copied().collect(), "{}", step.name);
    }
}
