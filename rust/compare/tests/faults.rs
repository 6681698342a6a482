//! The comparison finds planted faults and makes what shows them small; and a short run meets every answer.

use compare::call::{self, Buffers, Call, Lent, Outcome, Subject};
use compare::sides::Sides;
use compare::{buffers, histories, logs, sweep};
use model::layout::{Client, Entry, Head, Ledger, client_index, ledger_index, place_index};
use model::random::Random;
use model::{Answer, Step, plans, rights, words};

/// The first report, within this many tries.
fn first(
    compare: fn(Subject, &mut Sides, &mut Random) -> Result<(), String>,
    subject: Subject,
    tries: u64,
) -> Option<String> {
    let (mut sides, mut random) = (Sides::new(subject), Random::new(3));
    (0..tries).find_map(|_| compare(subject, &mut sides, &mut random).err())
}

/// The calls in a report on a history, fresh left out.
fn history(report: &str) -> Vec<&str> {
    report.lines().skip_while(|line| !line.starts_with("  Fresh(")).skip(1).collect()
}

// A likely mistake: the named leader is asked on a write.
fn refuses_unnamed(call: Call, lent: &mut Lent) -> Outcome {
    if let Call::Step(client, Step::Write(_)) = call
        && Head::load(lent.state[0]).0.leader != client
        && let Outcome::Answer(Answer::Entry { .. }) = on_copies(call, lent)
    {
        return Outcome::Answer(Answer::Refused(6));
    }
    call::model(call, lent)
}

/// What the model gives, without a change of the buffers.
fn on_copies(call: Call, lent: &Lent) -> Outcome {
    call::model(call, &mut copies(lent).lend())
}

fn copies(lent: &Lent) -> Buffers {
    Buffers {
        state: lent.state.to_vec(),
        entries: lent.entries.to_vec(),
        marks: lent.marks.to_vec(),
        rights: lent.rights.to_vec(),
        plan: lent.plan.to_vec(),
        output: lent.output.to_vec(),
    }
}

// Another: a closer that is behind goes on to create. The answer is right, a word isn't.
fn behind_goes_on(call: Call, lent: &mut Lent) -> Outcome {
    let outcome = call::model(call, lent);
    if let (Call::Step(number, Step::CloseLast), Outcome::Answer(Answer::Behind)) = (call, &outcome) {
        let word = &mut lent.state[client_index(number)];
        *word = Client { stage: 3, ..Client::load(*word).0 }.word();
    }
    outcome
}

// The check overlooks one bit of one list place.
fn overlooks_a_bit(call: Call, lent: &mut Lent) -> Outcome {
    if call != Call::WellFormed || lent.state.len() != 527 {
        return call::model(call, lent);
    }
    let place = place_index(9);
    let word = lent.state[place];
    lent.state[place] &= !1;
    let outcome = call::model(call, lent);
    lent.state[place] = word;
    outcome
}

// Read chain stores one word behind its reading.
fn stray_store(call: Call, lent: &mut Lent) -> Outcome {
    let outcome = call::model(call, lent);
    if let Outcome::Count { answer: Answer::Done, count } = outcome
        && let Some(word) = lent.output.get_mut(count as usize)
    {
        *word = 0;
    }
    outcome
}

// A list place is taken for a ledger number, which shows only on logs with gaps.
fn fence_by_place(call: Call, lent: &mut Lent) -> Outcome {
    let listed = lent.state.get(place_index(1)).is_some_and(|word| word >> 56 == 2);
    match call::model(call, lent) {
        Outcome::Part { .. } if listed => Outcome::Part { answer: Answer::Refused(15), start: 0, count: 0 },
        outcome => outcome,
    }
}

// An empty part lies somewhere, where it should lie at 0.
fn empty_part_elsewhere(call: Call, lent: &mut Lent) -> Outcome {
    match call::model(call, lent) {
        Outcome::Part { answer: Answer::Done, count: 0, .. } => {
            Outcome::Part { answer: Answer::Done, start: Head::load(lent.state[0]).0.entry_count, count: 0 }
        }
        outcome => outcome,
    }
}

// A refused reading has a part all the same.
fn refused_with_a_part(call: Call, lent: &mut Lent) -> Outcome {
    match call::model(call, lent) {
        Outcome::Part { answer: Answer::Refused(15), .. } => {
            Outcome::Part { answer: Answer::Refused(15), start: 0, count: 1 }
        }
        outcome => outcome,
    }
}

// A reading that is refused for want of room says how much it would have taken.
fn refused_with_a_count(call: Call, lent: &mut Lent) -> Outcome {
    match call::model(call, lent) {
        Outcome::Count { answer: Answer::Refused(16), .. } => {
            Outcome::Count { answer: Answer::Refused(16), count: lent.output.len() as u64 + 1 }
        }
        outcome => outcome,
    }
}

// The place that a write answers is counted in the whole log, which shows only from a second ledger on.
fn place_in_the_log(call: Call, lent: &mut Lent) -> Outcome {
    match call::model(call, lent) {
        Outcome::Answer(Answer::Entry { number, .. }) => Outcome::Answer(Answer::Entry { number, place: number }),
        outcome => outcome,
    }
}

// A client's own ledger isn't closed before it has an entry.
fn keeps_an_empty_ledger_open(call: Call, lent: &mut Lent) -> Outcome {
    if let Call::Step(client, Step::CloseOwn) = call
        && on_copies(call, lent) == Outcome::Answer(Answer::Done)
    {
        let ledger = Client::load(lent.state[client_index(client)]).0.ledger;
        if !lent.entries.iter().any(|&word| Entry::load(word).ledger == ledger) {
            return Outcome::Answer(Answer::Refused(14));
        }
    }
    call::model(call, lent)
}

// What is created after a finish is remembered with the recovering flag of the ledger before. No answer shows it.
fn keeps_recovering(call: Call, lent: &mut Lent) -> Outcome {
    let remembered = match call {
        Call::Step(client @ 0..16, Step::Create) => lent.state.get(client_index(client)).copied().unwrap_or(0),
        _ => 0,
    };
    let outcome = call::model(call, lent);
    if let (Call::Step(client, _), Outcome::Answer(Answer::Done)) = (call, &outcome) {
        let recovering = Client::load(remembered).0.recovering;
        let word = &mut lent.state[client_index(client)];
        *word = Client { recovering: Client::load(*word).0.recovering | recovering, ..Client::load(*word).0 }.word();
    }
    outcome
}

// A finish of a ledger that is stored as closed, with the version remembered.
fn finishes_a_closed_ledger(call: Call, lent: &mut Lent) -> Outcome {
    let outcome = call::model(call, lent);
    if let (Call::Step(client, Step::Finish), Outcome::Answer(Answer::Refused(9))) = (call, &outcome) {
        let client = Client::load(lent.state[client_index(client)]).0;
        if client.recovering == 1 && Ledger::load(lent.state[ledger_index(client.ledger)]).0.version == 1 {
            return Outcome::Answer(Answer::Done);
        }
    }
    outcome
}

// The last score is not looked at.
fn skips_the_last_score(call: Call, lent: &mut Lent) -> Outcome {
    match call {
        Call::Step(client, Step::WriteScores([most @ .., _])) if (1..4_000).contains(&most.len()) => {
            call::model(Call::Step(client, Step::WriteScores(most)), lent)
        }
        call => call::model(call, lent),
    }
}

// The client's lead is looked at before the scores.
fn lead_before_scores(call: Call, lent: &mut Lent) -> Outcome {
    let outcome = call::model(call, lent);
    match (call, &outcome) {
        (Call::Step(client, Step::WriteScores(_)), Outcome::Answer(Answer::Refused(18 | 19)))
            if Client::load(lent.state[client_index(client)]).0.leads == 0 =>
        {
            Outcome::Answer(Answer::Refused(7))
        }
        _ => outcome,
    }
}

// A value is looked at before the client's lead, its stage and its memory.
fn value_first(call: Call, lent: &mut Lent) -> Outcome {
    match (call, call::model(call, lent)) {
        (Call::Step(_, Step::Write(value)), Outcome::Answer(Answer::Refused(7..=9))) if value >= 1 << 52 => {
            Outcome::Answer(Answer::Refused(11))
        }
        (_, outcome) => outcome,
    }
}

// A value is looked at after the fence.
fn value_after_the_fence(call: Call, lent: &mut Lent) -> Outcome {
    let outcome = call::model(call, lent);
    if let (Call::Step(client, Step::Write(_)), Outcome::Answer(Answer::Refused(11))) = (call, &outcome) {
        let ledger = Client::load(lent.state[client_index(client)]).0.ledger;
        if Ledger::load(lent.state[ledger_index(ledger)]).0.fenced == 1 {
            return Outcome::Answer(Answer::Refused(12));
        }
    }
    outcome
}

// A window whose values come to the limit, and to no more, is taken for one over it.
fn at_the_limit_is_over(call: Call, lent: &mut Lent) -> Outcome {
    match call {
        Call::FirstWindow(length, limit) if limit > 0 => call::model(Call::FirstWindow(length, limit - 1), lent),
        call => call::model(call, lent),
    }
}

// The last window is not looked at, nor the only one.
fn leaves_out_the_last_window(call: Call, lent: &mut Lent) -> Outcome {
    let outcome = call::model(call, lent);
    if let (Call::FirstWindow(length, _), Outcome::Window { found: 1, start, .. }) = (call, &outcome) {
        let mut reading = Buffers { output: vec![0; 255 * 4096], ..copies(lent) };
        let chain = call::model(Call::ReadChain, &mut reading.lend());
        if chain == (Outcome::Count { answer: Answer::Done, count: start + length }) {
            return Outcome::Window { answer: Answer::Done, found: 0, start: 0 };
        }
    }
    outcome
}

// Every client is advised as if it were named.
fn advises_by_stage_alone(call: Call, lent: &mut Lent) -> Outcome {
    let outcome = call::model(call, lent);
    match (call, &outcome) {
        (Call::Advise(client), Outcome::Advice(_)) => {
            let mut named = copies(lent);
            named.state[0] = Head { leader: client, ..Head::load(named.state[0]).0 }.word();
            call::model(call, &mut named.lend())
        }
        _ => outcome,
    }
}

// A client that isn't named is told to abdicate where it doesn't lead, and nothing where it does.
fn swaps_abdicate_and_none(call: Call, lent: &mut Lent) -> Outcome {
    match call::model(call, lent) {
        Outcome::Advice(None) => Outcome::Advice(Some(Step::Abdicate)),
        Outcome::Advice(Some(Step::Abdicate)) => Outcome::Advice(None),
        outcome => outcome,
    }
}

// The fence of the last listed ledger is looked at, and not that of the client's own.
fn looks_at_another_fence(call: Call, lent: &mut Lent) -> Outcome {
    let outcome = call::model(call, lent);
    if let Outcome::Advice(Some(Step::Write(_) | Step::CloseOwn)) = outcome {
        let last = lent.state[place_index(Head::load(lent.state[0]).0.list_length)] >> 56;
        let fenced = Ledger::load(lent.state[ledger_index(last)]).0.fenced == 1;
        return Outcome::Advice(Some(if fenced { Step::CloseOwn } else { Step::Write(0) }));
    }
    outcome
}

// A mark that is dropped leaves a zero pair where it was.
fn leaves_a_gap(call: Call, lent: &mut Lent) -> Outcome {
    let before = lent.marks.to_vec();
    let outcome = call::model(call, lent);
    if let (Call::DropMark(name), Outcome::Answer(Answer::Done)) = (call, &outcome) {
        lent.marks.copy_from_slice(&before);
        let place = before.iter().step_by(2).position(|&kept| kept == name).expect("it was kept");
        lent.marks[2 * place..2 * place + 2].fill(0);
    }
    outcome
}

// The first words of the chain reading are given, where there are so many, and not those of the entry buffer.
fn reads_the_chain(call: Call, lent: &mut Lent) -> Outcome {
    let outcome = call::model(call, lent);
    if let (Call::ReadMark(_), Outcome::Count { answer: Answer::Done, count }) = (call, &outcome) {
        let (mut chain, count) = (vec![0; 255 * 4096], *count as usize);
        if words::read_chain(lent.state, lent.entries, &mut chain).is_ok_and(|length| length >= count) {
            lent.output[..count].copy_from_slice(&chain[..count]);
        }
    }
    outcome
}

// A mark that is set while 32 are kept is refused for want of room, whatever its name.
fn room_before_the_name(call: Call, lent: &mut Lent) -> Outcome {
    match (call, call::model(call, lent)) {
        (Call::SetMark(_), Outcome::Answer(Answer::Refused(21))) if lent.marks[62] != 0 => {
            Outcome::Answer(Answer::Refused(22))
        }
        (_, outcome) => outcome,
    }
}

// Name 0 is found in the first zero pair.
fn finds_name_zero(call: Call, lent: &mut Lent) -> Outcome {
    match (call, call::model(call, lent)) {
        (Call::ReadMark(0), Outcome::Count { answer: Answer::Refused(23), .. }) if lent.marks[62] == 0 => {
            Outcome::Count { answer: Answer::Done, count: 0 }
        }
        (Call::DropMark(0), Outcome::Answer(Answer::Refused(23))) if lent.marks[62] == 0 => {
            Outcome::Answer(Answer::Done)
        }
        (_, outcome) => outcome,
    }
}

// Every mark is set at the count of the first.
fn sets_at_the_first_count(call: Call, lent: &mut Lent) -> Outcome {
    let outcome = call::model(call, lent);
    if let (Call::SetMark(_), Outcome::Answer(Answer::Done)) = (call, &outcome) {
        let last = lent.marks.iter().step_by(2).take_while(|&&name| name != 0).count() - 1;
        lent.marks[2 * last + 1] = lent.marks[1];
    }
    outcome
}

// The marks are taken though one bit of a count's word is set that should not be.
fn overlooks_a_marks_bit(call: Call, lent: &mut Lent) -> Outcome {
    match call {
        Call::ReadMark(_) if lent.marks.len() == 64 && lent.marks[5] & 1 == 1 => {
            lent.marks[5] &= !1;
            let outcome = call::model(call, lent);
            lent.marks[5] |= 1;
            outcome
        }
        call => call::model(call, lent),
    }
}

// The right is looked for before the client's number, and so not found.
fn right_before_the_client(call: Call, lent: &mut Lent) -> Outcome {
    match (call, call::model(call, lent)) {
        (Call::StepWith(..), Outcome::Answer(Answer::Refused(3))) => Outcome::Answer(Answer::Refused(24)),
        (_, outcome) => outcome,
    }
}

// The rights of finish and create are taken for each other's.
fn swaps_finish_and_create(call: Call, lent: &mut Lent) -> Outcome {
    let (finish, create) = (rights::bit(Step::Finish), rights::bit(Step::Create));
    let swapped = |word: u64| match (word & finish, word & create) {
        (0, 0) | (1.., 1..) => word,
        _ => word ^ finish ^ create,
    };
    if !matches!(call, Call::StepWith(_, Step::Finish | Step::Create)) {
        return call::model(call, lent);
    }
    lent.rights.iter_mut().for_each(|word| *word = swapped(*word));
    let outcome = call::model(call, lent);
    lent.rights.iter_mut().for_each(|word| *word = swapped(*word));
    outcome
}

// The right is looked up in the word of the named leader.
fn right_of_the_named_leader(call: Call, lent: &mut Lent) -> Outcome {
    let Call::StepWith(client, step) = call else {
        return call::model(call, lent);
    };
    // The scores are looked at before the right, so a refusal for them stays.
    let before = on_copies(call, lent);
    if !matches!(before.answer(), Some(Answer::Refused(1..=3 | 18 | 19))) {
        let leader = Head::load(lent.state[0]).0.leader;
        if !rights::allows(lent.rights, leader, step) {
            return Outcome::Answer(Answer::Refused(24));
        }
        return call::model(Call::Step(client, step), lent);
    }
    before
}

// The content of the log is looked at before the length of the rights.
fn content_before_the_length(call: Call, lent: &mut Lent) -> Outcome {
    let outcome = call::model(call, lent);
    let right_lengths = lent.state.len() == 527 && matches!(lent.entries.len(), 512 | 4096);
    if let (Call::StepWith(..), Outcome::Answer(Answer::Refused(1))) = (call, &outcome)
        && right_lengths
        && !words::well_formed(lent.state, lent.entries)
    {
        return Outcome::Answer(Answer::Refused(2));
    }
    outcome
}

// Rights are looked at no further than their length and their words.
fn ignores_rights(call: Call, lent: &mut Lent) -> Outcome {
    match (call, on_copies(call, lent)) {
        (Call::StepWith(client, step), Outcome::Answer(Answer::Refused(24))) => {
            call::model(Call::Step(client, step), lent)
        }
        _ => call::model(call, lent),
    }
}

// The right to a step is used up by it.
fn uses_up_the_right(call: Call, lent: &mut Lent) -> Outcome {
    let outcome = call::model(call, lent);
    if let (Call::StepWith(client, step), true) = (call, outcome.changes()) {
        lent.rights[client as usize] &= !rights::bit(step);
    }
    outcome
}

// Rights of a client that the log doesn't have are taken, for one bit of them.
fn overlooks_a_right_beyond_the_count(call: Call, lent: &mut Lent) -> Outcome {
    match call {
        Call::StepWith(..) if lent.rights.len() == 16 && lent.rights[9] >> 63 == 1 => {
            let kept = std::mem::take(&mut lent.rights[9]);
            let outcome = call::model(call, lent);
            lent.rights[9] = kept;
            outcome
        }
        call => call::model(call, lent),
    }
}

/// The answers of a run, with each of its words, without a change of the buffers.
fn planned_answers(lent: &Lent, budget: u64) -> Vec<(u64, Answer)> {
    let mut copies = copies(lent);
    let Buffers { state, entries, rights, .. } = &mut copies;
    plans::within(lent.plan, budget).iter().map(|&word| (word, plans::take(state, entries, rights, word))).collect()
}

/// A forecast that is off by what these answers come to, by one for each that is so.
fn miscounts(call: Call, lent: &mut Lent, add: impl Fn(&mut plans::Counts, u64, Answer)) -> Outcome {
    match (call, call::model(call, lent)) {
        (Call::Forecast(budget), Outcome::Forecast(mut counts)) => {
            planned_answers(lent, budget).into_iter().for_each(|(word, answer)| add(&mut counts, word, answer));
            Outcome::Forecast(counts)
        }
        (_, outcome) => outcome,
    }
}

// Steps that are refused are left out of the number that a run reports.
fn refused_steps_do_not_count(call: Call, lent: &mut Lent) -> Outcome {
    let Call::RunPlan(budget) = call else { return call::model(call, lent) };
    let answers = planned_answers(lent, budget);
    call::model(call, lent);
    Outcome::Taken(answers.iter().filter(|(_, answer)| !matches!(answer, Answer::Refused(_))).count() as u64)
}

// A run on buffers that are no log ends before its first step.
fn reports_none_on_no_log(call: Call, lent: &mut Lent) -> Outcome {
    match (call, call::model(call, lent)) {
        (Call::RunPlan(_), _) if !words::well_formed(lent.state, lent.entries) => Outcome::Taken(0),
        (_, outcome) => outcome,
    }
}

// A run stops behind its first refusal, and reports all the same.
fn stops_at_a_refusal(call: Call, lent: &mut Lent) -> Outcome {
    let Call::RunPlan(budget) = call else { return call::model(call, lent) };
    let answers = planned_answers(lent, budget);
    let refused = answers.iter().position(|(_, answer)| matches!(answer, Answer::Refused(_)));
    call::model(Call::RunPlan(refused.map_or(budget, |place| place as u64)), lent);
    Outcome::Taken(answers.len() as u64)
}

// A word that names no step is passed over.
fn unknown_steps_are_no_refusals(call: Call, lent: &mut Lent) -> Outcome {
    miscounts(call, lent, |counts, word, _| counts.refusals -= u64::from(plans::parts(word).is_none()))
}

fn counts_behind_as_a_refusal(call: Call, lent: &mut Lent) -> Outcome {
    miscounts(call, lent, |counts, _, answer| counts.refusals += u64::from(answer == Answer::Behind))
}

fn counts_was_closed_as_a_refusal(call: Call, lent: &mut Lent) -> Outcome {
    miscounts(call, lent, |counts, _, answer| counts.refusals += u64::from(answer == Answer::WasClosed))
}

fn counts_done_appends(call: Call, lent: &mut Lent) -> Outcome {
    miscounts(call, lent, |counts, word, answer| {
        counts.ledgers += u64::from(answer == Answer::Done && word >> 60 == 7);
    })
}

// The model on another plan, which is put back.
fn with_plan(call: Call, lent: &mut Lent, word: impl Fn(u64) -> u64) -> Outcome {
    let plan = lent.plan.to_vec();
    if matches!(call, Call::RunPlan(_) | Call::Forecast(_)) {
        lent.plan.iter_mut().for_each(|planned| *planned = word(*planned));
    }
    let outcome = call::model(call, lent);
    lent.plan.copy_from_slice(&plan);
    outcome
}

// Finish and create are numbered in the other order.
fn numbers_create_before_finish(call: Call, lent: &mut Lent) -> Outcome {
    with_plan(call, lent, |word| match word >> 60 {
        5 | 6 => word ^ (3 << 60),
        _ => word,
    })
}

// The order without finish, as it was before there was one: what comes behind it is numbered one less.
fn numbers_without_finish(call: Call, lent: &mut Lent) -> Outcome {
    with_plan(call, lent, |word| match word >> 60 {
        5..=8 => word + (1 << 60),
        9 => word | (15 << 60),
        _ => word,
    })
}

// Of a client its lowest four bits are taken, so that 16 is client 0.
fn cuts_the_client(call: Call, lent: &mut Lent) -> Outcome {
    with_plan(call, lent, |word| word & !(0xF0 << 52))
}

// A value is taken for a mistake in all steps but a write.
fn refuses_a_value(call: Call, lent: &mut Lent) -> Outcome {
    with_plan(call, lent, |word| if word >> 60 != 8 && word << 12 != 0 { u64::MAX } else { word })
}

// A write behind a write that is done is taken for one of the same client.
fn writes_on_for_another_client(call: Call, lent: &mut Lent) -> Outcome {
    let (Call::RunPlan(budget) | Call::Forecast(budget)) = call else { return call::model(call, lent) };
    let plan = lent.plan.to_vec();
    let answers = planned_answers(lent, budget);
    for place in 1..answers.len() {
        let ((before, answer), (word, _)) = (answers[place - 1], answers[place]);
        if matches!(answer, Answer::Entry { .. }) && word >> 60 == 8 {
            lent.plan[place] = (before >> 52 << 52) | (word << 12 >> 12);
        }
    }
    let outcome = call::model(call, lent);
    lent.plan.copy_from_slice(&plan);
    outcome
}

// A write behind a write that is done is counted as an entry, also where the log is full.
fn writes_on_in_a_full_log(call: Call, lent: &mut Lent) -> Outcome {
    let mut writes = false;
    match (call, call::model(call, lent)) {
        (Call::Forecast(budget), Outcome::Forecast(mut counts)) => {
            for (_, answer) in planned_answers(lent, budget) {
                counts.entries += u64::from(writes && answer == Answer::Refused(13));
                counts.refusals -= u64::from(writes && answer == Answer::Refused(13));
                writes = matches!(answer, Answer::Entry { .. });
            }
            Outcome::Forecast(counts)
        }
        (_, outcome) => outcome,
    }
}

// The forecast takes the run.
fn forecast_changes_the_log(call: Call, lent: &mut Lent) -> Outcome {
    let outcome = call::model(call, lent);
    if let Call::Forecast(budget) = call {
        call::model(Call::RunPlan(budget), lent);
    }
    outcome
}

// The forecast is of the whole plan, whatever the budget.
fn forecasts_the_whole_plan(call: Call, lent: &mut Lent) -> Outcome {
    match call {
        Call::Forecast(_) => call::model(Call::Forecast(u64::MAX), lent),
        call => call::model(call, lent),
    }
}

#[test]
fn finds_wrong_plans() {
    for compare in [histories::compare, buffers::compare] {
        let report = first(compare, refused_steps_do_not_count, 300).expect("the fault is found");
        assert!(report.contains("gives Taken(0), the model Taken(1)"), "{report}");
        let report = first(compare, stops_at_a_refusal, 300).expect("the fault is found");
        assert!(report.contains("RunPlan(") && report.contains(" word "), "{report}");
        for fault in [numbers_create_before_finish, numbers_without_finish, cuts_the_client, refuses_a_value] {
            let report = first(compare, fault, 500).expect("the fault is found");
            assert!(report.contains("Forecast(") || report.contains("RunPlan("), "{report}");
        }
        let report = first(compare, forecast_changes_the_log, 300).expect("the fault is found");
        assert!(report.contains("Forecast(") && report.contains("  state word "), "{report}");
    }
    let report = first(histories::compare, writes_on_for_another_client, 300).expect("the fault is found");
    assert!(report.contains("Forecast(") || report.contains("RunPlan("), "{report}");
}

#[test]
fn finds_wrong_forecasts() {
    for compare in [histories::compare, buffers::compare] {
        // What the two sides count, the subject's first.
        let counted = |subject: Subject, count: &str| {
            let report = first(compare, subject, 1000).expect("the fault is found");
            let after = report.split(count).skip(1).map(|rest| rest.split([',', ' ']).next().unwrap_or(""));
            after.take(2).map(|number| number.parse().expect("a number")).collect::<Vec<u64>>()
        };
        assert_eq!(counted(unknown_steps_are_no_refusals, "refusals: "), [0, 1]);
        assert_eq!(counted(counts_behind_as_a_refusal, "refusals: "), [1, 0]);
        assert_eq!(counted(counts_was_closed_as_a_refusal, "refusals: "), [1, 0]);
        let ledgers = counted(counts_done_appends, "ledgers: ");
        assert_eq!(ledgers[0], ledgers[1] + 1);
        let report = first(compare, forecasts_the_whole_plan, 300).expect("the fault is found");
        assert!(report.starts_with("Forecast("), "{report}");
    }
    // Few histories fill a log.
    let report = first(buffers::compare, writes_on_in_a_full_log, 1000).expect("the fault is found");
    assert!(report.contains("Forecast("), "{report}");
}

// A history's log is well formed, so this shows only on other buffers.
#[test]
fn finds_a_run_that_ends_early() {
    assert_eq!(first(histories::compare, reports_none_on_no_log, 100), None);
    let report = first(buffers::compare, reports_none_on_no_log, 300).expect("the fault is found");
    assert!(report.contains("gives Taken(0), the model Taken(1)"), "{report}");
    assert!(report.contains("plan: 1 words"), "{report}");
}

// One step shows that a run stops too early: it is behind one that is refused.
#[test]
fn makes_a_plan_short() {
    let report = first(histories::compare, stops_at_a_refusal, 300).expect("the fault is found");
    let plan = report.split("the plan [").last().and_then(|rest| rest.split(']').next()).expect("a plan");
    assert_eq!(plan.split(", ").count(), 2, "{report}");
}

// A list place is taken for the number of the ledger there, which shows only on logs with gaps.
fn names_the_place(call: Call, lent: &mut Lent) -> Outcome {
    match (call, call::model(call, lent)) {
        (Call::LedgerAt(place), Outcome::Listed { answer: Answer::Done, .. }) => {
            Outcome::Listed { answer: Answer::Done, ledger: place }
        }
        (_, outcome) => outcome,
    }
}

// The place behind the last is answered.
fn answers_a_place_too_many(call: Call, lent: &mut Lent) -> Outcome {
    match (call, call::model(call, lent)) {
        (Call::LedgerAt(place), Outcome::Listed { answer: Answer::Refused(15), .. })
            if place == Head::load(lent.state[0]).0.list_length + 1 =>
        {
            Outcome::Listed { answer: Answer::Done, ledger: 0 }
        }
        (_, outcome) => outcome,
    }
}

// Each ledger is rounded, and then they are added up.
fn rounds_each_ledger(call: Call, lent: &mut Lent) -> Outcome {
    match call::model(call, lent) {
        Outcome::Total { answer: Answer::Done, ones, parts, .. } => {
            let listed = (1..).map_while(|place| words::ledger_at(lent.state, lent.entries, place).ok());
            let sums =
                listed.map(|ledger| words::ledger_sum(lent.state, lent.entries, ledger).expect("it is listed").1);
            let rounded = sums.map(|sum| sum / 1_000_000_000 + u64::from(sum % 1_000_000_000 >= 500_000_000)).sum();
            Outcome::Total { answer: Answer::Done, ones, parts, rounded }
        }
        outcome => outcome,
    }
}

// The total is kept in 64 bits, which shows only on words that no fresh log leads to.
fn wraps_the_total(call: Call, lent: &mut Lent) -> Outcome {
    match call::model(call, lent) {
        Outcome::Total { answer: Answer::Done, ones, parts, rounded } => {
            let total = ones.wrapping_mul(1_000_000_000_000).wrapping_add(parts);
            let (ones, parts) = (total / 1_000_000_000_000, total % 1_000_000_000_000);
            Outcome::Total { answer: Answer::Done, ones, parts, rounded }
        }
        outcome => outcome,
    }
}

#[test]
fn finds_wrong_totals() {
    for compare in [histories::compare, buffers::compare] {
        let report = first(compare, names_the_place, 500).expect("the fault is found");
        assert!(report.contains("LedgerAt(") && report.contains("Listed { answer: Done, ledger: "), "{report}");
        let report = first(compare, answers_a_place_too_many, 300).expect("the fault is found");
        assert!(report.contains("the model Listed { answer: Refused(15), ledger: 0 }"), "{report}");
        let report = first(compare, rounds_each_ledger, 500).expect("the fault is found");
        assert!(report.contains("RunTotal: the library gives Total { answer: Done, "), "{report}");
    }
    assert_eq!(first(histories::compare, wraps_the_total, 100), None);
    let report = first(buffers::compare, wraps_the_total, 500).expect("the fault is found");
    assert!(report.contains("RunTotal: the library gives Total { answer: Done, "), "{report}");
}

// A log of 512 words says that it took a 513th entry.
fn full_only_at_4096(call: Call, lent: &mut Lent) -> Outcome {
    match call::model(call, lent) {
        Outcome::Answer(Answer::Refused(13)) if lent.entries.len() == 512 => {
            Outcome::Answer(Answer::Entry { number: 512, place: 0 })
        }
        outcome => outcome,
    }
}

// An entry buffer of 513 words is taken for one of 512.
fn takes_513_words(call: Call, lent: &mut Lent) -> Outcome {
    let Lent { state, entries, marks, rights, plan, output } = lent;
    let words = if entries.len() == 513 { 512 } else { entries.len() };
    call::model(call, &mut Lent { state, entries: &mut entries[..words], marks, rights, plan, output })
}

// With 512 words every count up to 4,096 is in range.
fn takes_a_count_above_512(call: Call, lent: &mut Lent) -> Outcome {
    let (right, head) = (lent.state.len() == 527, lent.state.first().copied().unwrap_or(0));
    if call != Call::WellFormed || !right || lent.entries.len() != 512 || !(513..=4096).contains(&(head >> 51)) {
        return call::model(call, lent);
    }
    lent.state[0] = Head { entry_count: 512, ..Head::load(head).0 }.word() | head & 0x1FF_FFFF;
    let outcome = call::model(call, lent);
    lent.state[0] = head;
    outcome
}

#[test]
fn finds_wrong_capacities() {
    let given = "number: 512, place: 0 }), the model Answer(Refused(13))";
    let report = first(buffers::compare, full_only_at_4096, 3000).expect("the fault is found");
    assert!(report.contains(given) && report.contains("entries: 512 words, 512 not zero"), "{report}");
    let report = first(histories::compare, full_only_at_4096, 100).expect("the fault is found");
    assert!(report.contains(given) && report.contains(") on 512 entry words\n"), "{report}");
    // What shows it is a write, by value or by scores.
    assert!(history(&report).last().is_some_and(|line| line.contains("Write")), "{report}");
}

// A history's buffers have their lengths and a count in range, so these show only on other buffers.
#[test]
fn finds_wrong_lengths_and_counts() {
    assert_eq!(first(histories::compare, takes_513_words, 20), None);
    let report = first(buffers::compare, takes_513_words, 1000).expect("the fault is found");
    assert!(report.contains("entries: 513 words, "), "{report}");
    assert_eq!(first(histories::compare, takes_a_count_above_512, 20), None);
    let report = first(buffers::compare, takes_a_count_above_512, 1000).expect("the fault is found");
    assert!(report.contains("gives WellFormed(true), the model WellFormed(false)"), "{report}");
    assert!(report.contains("entries: 512 words, "), "{report}");
    let log = logs::all().pop().expect("the small one");
    let mut sides = Sides::new(takes_a_count_above_512);
    let report = sweep::changes(takes_a_count_above_512, &mut sides, &log, 0..64).unwrap_err();
    assert!(report.contains("The log 'small and full' with bit 51 of state word 0 changed"), "{report}");
}

#[test]
fn finds_wrong_rights() {
    for compare in [histories::compare, buffers::compare] {
        let report = first(compare, right_before_the_client, 300).expect("the fault is found");
        assert!(report.contains("gives Answer(Refused(24)), the model Answer(Refused(3))"), "{report}");
        let report = first(compare, swaps_finish_and_create, 300).expect("the fault is found");
        assert!(report.contains("Answer(Refused(24))"), "{report}");
        let report = first(compare, right_of_the_named_leader, 300).expect("the fault is found");
        assert!(report.contains("Answer(Refused(24))"), "{report}");
        let report = first(compare, ignores_rights, 300).expect("the fault is found");
        assert!(report.contains("the model Answer(Refused(24))"), "{report}");
        let report = first(compare, uses_up_the_right, 300).expect("the fault is found");
        assert!(report.contains("  rights word "), "{report}");
    }
}

// A history's log is well formed, so this shows only on other buffers.
#[test]
fn finds_content_before_the_length_of_rights() {
    assert_eq!(first(histories::compare, content_before_the_length, 100), None);
    let report = first(buffers::compare, content_before_the_length, 1000).expect("the fault is found");
    assert!(report.contains("gives Answer(Refused(2)), the model Answer(Refused(1))"), "{report}");
}

// One step shows that rights are ignored: the history is that step.
#[test]
fn makes_a_history_under_rights_short() {
    let report = first(histories::compare, ignores_rights, 100).expect("the fault is found");
    let calls = history(&report);
    assert!(calls.last().is_some_and(|call| call.contains(" under 16 words of rights [")), "{report}");
    assert_eq!(calls.len(), 1, "{report}");
}

#[test]
fn finds_an_overlooked_right() {
    let log = &logs::all()[0];
    let mut sides = Sides::new(overlooks_a_right_beyond_the_count);
    let report = sweep::rights_changes(overlooks_a_right_beyond_the_count, &mut sides, log).unwrap_err();
    assert!(report.contains("with bit 63 of rights word 9 changed"), "{report}");
}

// A step goes by the last four bits of its number, as in a step word.
fn step_by_its_last_four_bits(call: Call, lent: &mut Lent) -> Outcome {
    match call {
        Call::Take(number, client, value) => call::model(Call::Take(number % 16, client, value), lent),
        Call::TakeWith(number, client, value) => call::model(Call::TakeWith(number % 16, client, value), lent),
        call => call::model(call, lent),
    }
}

// A wrong length is told before a number that is no step's.
fn length_before_the_number(call: Call, lent: &mut Lent) -> Outcome {
    match (call, call::model(call, lent)) {
        (Call::Take(..) | Call::TakeWith(..), Outcome::Answer(Answer::Refused(25))) if lent.state.len() != 527 => {
            Outcome::Answer(Answer::Refused(1))
        }
        (_, outcome) => outcome,
    }
}

// 5 is create and 6 is finish.
fn numbers_exchanged(call: Call, lent: &mut Lent) -> Outcome {
    match call {
        Call::Take(number @ 5..=6, client, value) => call::model(Call::Take(11 - number, client, value), lent),
        call => call::model(call, lent),
    }
}

// A value is cut to its 52 bits, as in a step word.
fn cuts_the_value(call: Call, lent: &mut Lent) -> Outcome {
    match call {
        Call::Take(number, client, value) => call::model(Call::Take(number, client, value % (1 << 52)), lent),
        call => call::model(call, lent),
    }
}

#[test]
fn finds_wrong_steps_by_number() {
    let report = first(buffers::compare, step_by_its_last_four_bits, 300).expect("the fault is found");
    assert!(report.contains("the model Answer(Refused(25))"), "{report}");
    let report = first(buffers::compare, length_before_the_number, 300).expect("the fault is found");
    assert!(report.contains("gives Answer(Refused(1)), the model Answer(Refused(25))"), "{report}");
    let report = first(buffers::compare, numbers_exchanged, 300).expect("the fault is found");
    assert!(report.starts_with("Take(5, ") || report.starts_with("Take(6, "), "{report}");
    // A wide value shows only where the client may write.
    let on = |log| sweep::undamaged(cuts_the_value, &mut Sides::new(cuts_the_value), log).err();
    let report = logs::all().iter().find_map(on).expect("the fault is found");
    assert!(report.contains("the model Answer(Refused(11))"), "{report}");
}

#[test]
fn finds_wrong_marks() {
    let report = first(histories::compare, leaves_a_gap, 100).expect("the fault is found");
    // Two marks are set, and the first is dropped.
    assert!(history(&report).len() <= 3 && report.contains("marks word 0"), "{report}");
    let report = first(buffers::compare, room_before_the_name, 300).expect("the fault is found");
    assert!(report.contains("gives Answer(Refused(22)), the model Answer(Refused(21))"), "{report}");
    for compare in [histories::compare, buffers::compare] {
        let report = first(compare, finds_name_zero, 300).expect("the fault is found");
        assert!(report.contains("Mark(0): the library gives "), "{report}");
    }
    let report = first(histories::compare, sets_at_the_first_count, 100).expect("the fault is found");
    assert!(report.contains("marks word 3"), "{report}");
}

// The two differ only where no fresh log leads to.
#[test]
fn finds_a_reading_from_the_chain() {
    assert_eq!(first(histories::compare, reads_the_chain, 100), None);
    let report = first(buffers::compare, reads_the_chain, 1000).expect("the fault is found");
    assert!(report.contains("  output word "), "{report}");
}

#[test]
fn finds_an_overlooked_bit_of_the_marks() {
    let log = &logs::all()[2];
    let mut sides = Sides::new(overlooks_a_marks_bit);
    let report = sweep::mark_changes(overlooks_a_marks_bit, &mut sides, log).unwrap_err();
    assert!(report.contains("with bit 0 of mark word 5 changed"), "{report}");
}

#[test]
fn finds_a_wrong_window() {
    let report = first(histories::compare, at_the_limit_is_over, 2000).expect("the fault is found");
    assert!(report.contains("found: 1, start: "), "{report}");
    for compare in [histories::compare, buffers::compare] {
        let report = first(compare, leaves_out_the_last_window, 2000).expect("the fault is found");
        assert!(report.contains("the model Window { answer: Done, found: 1, start: "), "{report}");
    }
}

#[test]
fn finds_wrong_advice() {
    let report = first(histories::compare, advises_by_stage_alone, 100).expect("the fault is found");
    assert!(report.contains("gives Advice(Some(Become)), the model Advice(None)"), "{report}");
    let report = first(histories::compare, swaps_abdicate_and_none, 100).expect("the fault is found");
    assert!(report.contains("gives Advice(Some(Abdicate)), the model Advice(None)"), "{report}");
    let report = first(histories::compare, looks_at_another_fence, 300).expect("the fault is found");
    assert!(report.contains("gives Advice(Some(Write(0))), the model Advice(Some(CloseOwn))"), "{report}");
}

#[test]
fn finds_a_wide_value_in_the_wrong_order() {
    let report = first(histories::compare, value_first, 100).expect("the fault is found");
    assert!(report.contains("gives Answer(Refused(11)), the model Answer(Refused("), "{report}");
    let report = first(histories::compare, value_after_the_fence, 100).expect("the fault is found");
    assert!(report.contains("gives Answer(Refused(12)), the model Answer(Refused(11))"), "{report}");
}

#[test]
fn finds_wrong_scores() {
    for compare in [histories::compare, buffers::compare] {
        let report = first(compare, skips_the_last_score, 1000).expect("the fault is found");
        let scores = report.split("WriteScores([").nth(1).and_then(|rest| rest.split(']').next());
        assert_eq!(scores.map(|scores| scores.split(", ").count()), Some(2), "{report}");
        let report = first(compare, lead_before_scores, 1000).expect("the fault is found");
        assert!(report.contains("gives Answer(Refused(7)), the model Answer(Refused(1"), "{report}");
    }
}

#[test]
fn finds_a_refused_write() {
    let report = first(histories::compare, refuses_unnamed, 100).expect("the fault is found");
    // A client leads, another is named, the first writes.
    assert!(history(&report).len() <= 7, "{report}");
    assert!(report.contains("Refused(6)"), "{report}");
}

#[test]
fn finds_an_empty_ledger_that_stays_open() {
    let report = first(histories::compare, keeps_an_empty_ledger_open, 100).expect("the fault is found");
    // Client 0 leads, and closes its first ledger.
    assert!(history(&report).len() <= 7, "{report}");
    assert!(report.contains("gives Answer(Refused(14)), the model Answer(Done)"), "{report}");
}

#[test]
fn finds_a_flag_that_stays() {
    let report = first(histories::compare, keeps_recovering, 100).expect("the fault is found");
    // Client 0 appends a ledger, another fences and finishes it, and creates one.
    assert!(history(&report).len() <= 12, "{report}");
    assert!(report.contains("state word"), "{report}");
}

#[test]
fn finds_a_finish_that_should_be_refused() {
    let report = first(buffers::compare, finishes_a_closed_ledger, 1000).expect("the fault is found");
    assert!(report.contains("gives Answer(Done), the model Answer(Refused(9))"), "{report}");
}

#[test]
fn finds_a_wrong_place() {
    let report = first(histories::compare, place_in_the_log, 100).expect("the fault is found");
    // A client writes, closes its ledger, and writes to its next.
    assert!(history(&report).len() <= 14, "{report}");
    assert!(
        report.contains("Entry { number: 1, place: 1 }), the model Answer(Entry { number: 1, place: 0 })"),
        "{report}"
    );
}

#[test]
fn finds_a_wrong_word() {
    let report = first(histories::compare, behind_goes_on, 100).expect("the fault is found");
    // Client 0 writes, another fetches, then both close: the second is behind.
    assert!(history(&report).len() <= 14, "{report}");
    assert!(report.contains("state word"), "{report}");
}

#[test]
fn finds_a_gap() {
    let report = first(histories::compare, fence_by_place, 200).expect("the fault is found");
    // Two create, the second appends first; both may have to be named. Each ledger from there to the one that is read takes
    // six steps more, with a handover.
    let ledger: usize = report.split(['(', ')']).nth(1).and_then(|number| number.parse().ok()).expect("a reading");
    assert!(history(&report).len() <= 10 + 6 * (ledger - 2), "{report}");
}

#[test]
fn finds_an_overlooked_bit() {
    let log = &logs::all()[0];
    let mut sides = Sides::new(overlooks_a_bit);
    let report = sweep::changes(overlooks_a_bit, &mut sides, log, 0..sweep::bits(log)).unwrap_err();
    assert!(report.contains("with bit 0 of state word 280 changed"), "{report}");
}

#[test]
fn finds_a_stray_store() {
    let report = first(buffers::compare, stray_store, 1000).expect("the fault is found");
    let entries = report.lines().find(|line| line.starts_with("entries: ")).unwrap_or_default();
    assert!(entries.ends_with(" words, 0 not zero"), "{report}");
}

#[test]
fn finds_parts_and_counts_that_should_be_empty() {
    let report = first(histories::compare, empty_part_elsewhere, 200).expect("the fault is found");
    assert!(report.contains("Part { answer: Done, start: 0, count: 0 }"), "{report}");
    let report = first(histories::compare, refused_with_a_part, 100).expect("the fault is found");
    assert!(report.contains("Part { answer: Refused(15), start: 0, count: 1 }"), "{report}");
    let report = first(buffers::compare, refused_with_a_count, 1000).expect("the fault is found");
    assert!(report.contains("the model Count { answer: Refused(16), count: 0 }"), "{report}");
}

#[test]
fn a_short_run_meets_every_answer() {
    let (mut sides, mut random) = (Sides::new(call::library), Random::new(2));
    for log in logs::all() {
        sweep::undamaged(call::library, &mut sides, &log).unwrap();
    }
    for _ in 0..40 {
        histories::compare(call::library, &mut sides, &mut random).unwrap();
        for _ in 0..25 {
            buffers::compare(call::library, &mut sides, &mut random).unwrap();
        }
    }
    assert_eq!(sides.tally.never_met(), Vec::<String>::new());
}
