//! Plans on the library: a run beside its steps made singly, a forecast beside what the run adds, and each number of a step.

use cindrolf::{Forecast, calls};
use compare::buffers::{any_buffers, well_formed};
use compare::call::{Buffers, library_step_with};
use compare::logs;
use compare::plans::{any_budget, any_plan, sensible_plan};
use compare::rights::any_rights;
use model::histories::Profile;
use model::layout::Head;
use model::random::Random;
use model::source::Source;
use model::{Answer, Step, rights};

fn head(log: &Buffers) -> Head {
    Head::load(log.state.first().copied().unwrap_or(0)).0
}

/// The step of a word by its number in the reference's order, N B A F L K C P W O.
fn step(word: u64) -> Option<Step> {
    let order = ["N", "B", "A", "F", "L", "K", "C", "P", "W", "O"];
    Some(match *order.get((word >> 60) as usize)? {
        "N" => Step::Name,
        "B" => Step::Become,
        "A" => Step::Abdicate,
        "F" => Step::Fetch,
        "L" => Step::CloseLast,
        "K" => Step::Finish,
        "C" => Step::Create,
        "P" => Step::Append,
        "W" => Step::Write(word & 0xF_FFFF_FFFF_FFFF),
        _ => Step::CloseOwn,
    })
}

/// Takes the words singly, and gives how many were refused; a word that names no step is.
fn singly(log: &mut Buffers, words: &[u64]) -> u64 {
    let mut refused = 0;
    for &word in words {
        let answer = step(word)
            .map(|step| library_step_with(&mut log.state, &mut log.entries, &log.rights, word >> 52 & 255, step));
        refused += u64::from(answer.is_none_or(|answer| matches!(answer, Answer::Refused(_))));
    }
    refused
}

/// Compares a run of the plan with its steps made singly and with its forecast. It gives the forecast.
fn agrees(log: &Buffers, budget: u64) -> Forecast {
    let (mut ran, mut stepped) = (log.clone(), log.clone());
    let forecast = calls::forecast(&log.state, &log.entries, &log.rights, &log.plan, budget);
    let taken = calls::run_plan(&mut ran.state, &mut ran.entries, &log.rights, &log.plan, budget);
    assert_eq!(taken, budget.min(log.plan.len() as u64));
    let refusals = singly(&mut stepped, &log.plan[..taken as usize]);
    assert!(ran == stepped, "{budget} of {:x?}", log.plan);
    let (before, after) = (head(log), head(&ran));
    let (entries, ledgers) = (after.entry_count - before.entry_count, after.next_ledger - before.next_ledger);
    assert_eq!(forecast, Forecast { entries, ledgers, refusals }, "{budget} of {:x?}", log.plan);
    forecast
}

// On buffers, plans, rights and budgets of every kind.
#[test]
fn a_run_is_its_steps_made_singly() {
    let (mut random, mut added, mut refused) = (Random::new(10), 0, 0);
    for round in 0..4_000 {
        let mut log = if round % 2 == 0 { well_formed(&mut random) } else { any_buffers(&mut random) };
        log.plan = any_plan(&mut random, &log);
        let count = head(&log).client_count;
        let first = log.plan.iter().find_map(|&word| step(word).map(|step| (word >> 52 & 255, step)));
        let (client, step) = first.unwrap_or((0, Step::Name));
        log.rights = any_rights(&mut random, count, client, step);
        let forecast = agrees(&log, any_budget(&mut random, log.plan.len()));
        added += forecast.entries + forecast.ledgers;
        refused += forecast.refusals;
    }
    assert!(added > 200 && refused > 1_000, "{added} {refused}");
}

// Plans from a fresh log to both limits.
#[test]
fn whole_runs() {
    let mut random = Random::new(11);
    let mut most = (0, 0);
    for profile in Profile::ALL {
        let clients = random.between(1, 16);
        let rights = rights::all(clients);
        let plan = sensible_plan(&mut random, &profile, &Source::init(clients), &rights, 8_000);
        let mut log = logs::fresh(clients);
        log.plan = plan;
        for budget in [0, 1, 7_999, 8_000, u64::MAX] {
            let forecast = agrees(&log, budget);
            most = (most.0.max(forecast.entries), most.1.max(forecast.ledgers));
        }
    }
    assert_eq!(most, (4_096, 255), "the plans reach both limits");
}

// Each number of a step, by each of 256 clients, on a log with a leader that writes: 16 numbers, of which six name no step.
#[test]
fn each_word() {
    let mut log = logs::chain(3, 2, 5);
    let mut refused = [0; 16];
    for (number, client) in (0..16).flat_map(|number| (0..256).map(move |client| (number, client))) {
        log.plan = vec![number << 60 | client << 52 | 0xF_0000_0000_0001];
        refused[number as usize] += agrees(&log, 1).refusals;
    }
    // Of the three clients, two can be named, and the one that leads can write and close its ledger.
    assert_eq!(refused, [254, 256, 256, 256, 256, 256, 256, 256, 255, 255, 256, 256, 256, 256, 256, 256]);
}

// A longer plan than the log is: every step of it counts, and those that find the log full are refused.
#[test]
fn a_long_plan() {
    let mut log = logs::chain(1, 1, 96);
    log.plan = (0..10_000).map(|value| 8 << 60 | value).collect();
    assert_eq!(agrees(&log, u64::MAX), Forecast { entries: 4_000, ledgers: 0, refusals: 6_000 });
    assert_eq!(agrees(&log, 4_000), Forecast { entries: 4_000, ledgers: 0, refusals: 0 });
    assert_eq!(agrees(&log, 4_001), Forecast { entries: 4_000, ledgers: 0, refusals: 1 });
}
