//! Buffers of any kind: well formed but unreachable, nearly well formed, random, and of wrong lengths.

use crate::call::{Buffers, Call, Subject};
use crate::marks::{self, any_marks};
use crate::plans::{any_budget, any_plan};
use crate::rights::any_rights;
use crate::shrink;
use crate::sides::Sides;
use model::histories::{any_client, any_value, with_any_input};
use model::layout::{
    Client, ENTRY_WORDS, Entry, Head, Ledger, NONE, Place, SMALL_ENTRY_WORDS, STATE_WORDS, client_index,
};
use model::random::Random;
use model::{Step, plans, words};

/// Compares every operation on one log and its marks, each several times. The error is a report.
pub fn compare(subject: Subject, sides: &mut Sides, random: &mut Random) -> Result<(), String> {
    let mut buffers = any_buffers(random);
    buffers.marks = any_marks(random, head(&buffers).entry_count);
    buffers.plan = any_plan(random, &buffers);
    sides.set(&buffers);
    for call in calls(random, &buffers) {
        let reading = match call {
            Call::ReadChain => Some(reading_length(&buffers)),
            Call::ReadMark(name) => Some(mark_count(&buffers, name)),
            _ => None,
        };
        if let Some(length) = reading {
            buffers.output = any_output(random, length);
            sides.set(&buffers);
        }
        if let Some((client, step)) = under_rights(call, &buffers.plan) {
            buffers.rights = any_rights(random, head(&buffers).client_count, client, step);
            sides.set_rights(&buffers.rights);
        }
        match sides.call(call) {
            Ok(outcome) if outcome.changes() => sides.set(&buffers),
            Ok(_) => {}
            Err(_) => return Err(shrink::report(subject, call, &buffers)),
        }
    }
    Ok(())
}

/// The client and the step that a call's rights are drawn for. Those of a forecast are for the first step that the plan has, and the run
/// after it has the same.
fn under_rights(call: Call, plan: &[u64]) -> Option<(u64, Step)> {
    match call {
        Call::StepWith(client, step) => Some((client, step)),
        Call::TakeWith(number, client, value) => Some((client, plans::step(number, value).unwrap_or(Step::Name))),
        Call::Forecast(_) => Some(plan.iter().find_map(|&word| plans::parts(word)).unwrap_or((0, Step::Name))),
        _ => None,
    }
}

/// The calls to try: each step by a client at any stage and by one at the step's own stage, under rights or without, then the others.
fn calls(random: &mut Random, buffers: &Buffers) -> Vec<Call> {
    let head = head(buffers);
    let mut calls = vec![Call::WellFormed, Call::ReadChain, Call::ReadChain, Call::RunTotal];
    for kind in Step::ALL {
        let step = with_any_input(random, kind);
        calls.push(any_call(random)(any_client(random, head.client_count), step));
        let ready = ready(buffers, kind);
        if !ready.is_empty() {
            calls.push(any_call(random)(random.pick(&ready), step));
        }
    }
    let reading = reading(buffers);
    calls.push(Call::Advise(head.leader));
    for _ in 0..2 {
        calls.push(Call::Advise(any_client(random, head.client_count)));
        calls.push(Call::ReadLedger(any_ledger(random, &head, buffers)));
        calls.push(Call::LedgerAt(any_place(random, &head)));
        calls.push(Call::LedgerSum(any_ledger(random, &head, buffers)));
        calls.push(Call::Fresh(any_count(random)));
        calls.push(any_window(random, &reading));
    }
    calls.extend(marks::calls(random, &buffers.marks));
    let budget = any_budget(random, buffers.plan.len());
    calls.extend([Call::Forecast(budget), Call::RunPlan(budget)]);
    calls.extend((0..4).map(|_| any_take(random, buffers)));
    calls
}

/// The clients at a step's own stage.
fn ready(buffers: &Buffers, kind: Step) -> Vec<u64> {
    let fits = |client: &u64| {
        let word = buffers.state.get(client_index(*client)).copied().unwrap_or(0);
        Client::load(word).0.stage == stage(kind)
    };
    (0..head(buffers).client_count.min(16)).filter(fits).collect()
}

/// A step by its number: mostly a step's, often by a client at its stage, or one that is a step's in its last bits, or any.
fn any_take(random: &mut Random, buffers: &Buffers) -> Call {
    let number = match random.below(8) {
        0 => random.pick(&[10, 15, 16, 255, 256, 1 << 32, u64::MAX]),
        1 => random.below(10) + random.pick(&[1 << 4, 1 << 8, 1 << 32, 1 << 60]),
        2 => random.word(),
        _ => random.below(10),
    };
    let take = random.pick(&[Call::Take as fn(u64, u64, u64) -> Call, Call::TakeWith]);
    let ready = plans::step(number, 0).map_or(vec![], |kind| ready(buffers, kind));
    let client = match ready[..] {
        [_, ..] if random.chance(50) => random.pick(&ready),
        _ => any_client(random, head(buffers).client_count),
    };
    take(number, client, any_value(random))
}

/// A step without rights, or one under rights.
pub fn any_call(random: &mut Random) -> fn(u64, Step) -> Call {
    random.pick(&[Call::Step, Call::StepWith])
}

fn head(buffers: &Buffers) -> Head {
    Head::load(buffers.state.first().copied().unwrap_or(0)).0
}

/// A window's length and a limit: often what the greatest window of this reading comes to, which is not over, or one less.
pub fn any_window(random: &mut Random, reading: &[u64]) -> Call {
    let length = match random.below(4) {
        0 => random.pick(&[0, 1, 2, 255, 256, 257, (1 << 32) + 1, u64::MAX]),
        1 => random.between(1, 256),
        _ => random.between(1, 12),
    };
    let sum = |window: &[u64]| window.iter().map(|&word| Entry::load(word).value).sum();
    let greatest: u64 = match length {
        1..=256 => reading.windows(length as usize).map(sum).max().unwrap_or(0),
        _ => 0,
    };
    let limit = match random.below(6) {
        0 => random.pick(&[0, 1, u64::MAX]),
        1 => random.below(1 << 60),
        2 => random.below(greatest + 1),
        3 => greatest,
        _ => greatest.saturating_sub(1),
    };
    Call::FirstWindow(length, limit)
}

/// The chain reading, where the buffers hold a log.
fn reading(buffers: &Buffers) -> Vec<u64> {
    let mut output = vec![0; reading_length(buffers)];
    let _ = words::read_chain(&buffers.state, &buffers.entries, &mut output);
    output
}

/// The stage at which a client can take the step.
fn stage(step: Step) -> u64 {
    match step {
        Step::Name | Step::Become | Step::Abdicate => 0,
        Step::Fetch => 1,
        Step::CloseLast => 2,
        Step::Finish => 6,
        Step::Create => 3,
        Step::Append => 4,
        Step::Write(_) | Step::WriteScores(_) | Step::CloseOwn => 5,
    }
}

fn any_ledger(random: &mut Random, head: &Head, buffers: &Buffers) -> u64 {
    match random.below(4) {
        0 => random.pick(&[0, 255, 256, 257, 1 << 32, u64::MAX, head.next_ledger]),
        1 => random.below(head.next_ledger + 1),
        _ => {
            let place = 272 + random.below(head.list_length.max(1)) as usize;
            buffers.state.get(place).copied().unwrap_or(0) >> 56
        }
    }
}

/// A list place, often the last one or one beside the list's ends.
fn any_place(random: &mut Random, head: &Head) -> u64 {
    match random.below(4) {
        0 => random.pick(&[0, 1, 255, 256, (1 << 32) + 1, u64::MAX]),
        1 => random.pick(&[head.list_length, head.list_length + 1]),
        _ => random.between(1, head.list_length.max(1)),
    }
}

fn any_count(random: &mut Random) -> u64 {
    match random.below(4) {
        0 => random.pick(&[0, 16, 17, 31, 32, 256, (1 << 32) + 1, u64::MAX]),
        _ => random.between(1, 16),
    }
}

/// An output buffer around the length of a reading, filled with words that show a stray store.
fn any_output(random: &mut Random, reading: usize) -> Vec<u64> {
    let length = match random.below(6) {
        0 => 0,
        1 => reading.saturating_sub(1),
        2 => reading + 1,
        3 => ENTRY_WORDS,
        4 => random.below(100) as usize,
        _ => reading,
    };
    (0..length as u64).map(|index| !index).collect()
}

/// The entry count of the mark of this name, if the buffer has one.
fn mark_count(buffers: &Buffers, name: u64) -> usize {
    buffers.marks.chunks_exact(2).find(|pair| pair[0] == name).map_or(0, |pair| (pair[1] >> 51) as usize)
}

/// The length of the chain reading, where the buffers hold a log.
fn reading_length(buffers: &Buffers) -> usize {
    if !words::well_formed(&buffers.state, &buffers.entries) {
        return 0;
    }
    let head = Head::load(buffers.state[0]).0;
    let mut counts = [0; 256];
    for &word in &buffers.entries[..head.entry_count as usize] {
        counts[Entry::load(word).ledger as usize] += 1;
    }
    let listed = &buffers.state[272..272 + head.list_length as usize];
    listed.iter().map(|&word| counts[Place::load(word).0.ledger as usize]).sum()
}

/// Buffers of any kind, mostly well formed or nearly so.
pub fn any_buffers(random: &mut Random) -> Buffers {
    let mut buffers = if random.chance(97) { well_formed(random) } else { random_words(random) };
    match random.below(11) {
        0..=4 => {}
        5..=8 => damage(random, &mut buffers),
        9 => wrong_length(random, &mut buffers),
        _ => buffers.entries.resize(random.pick(&ENTRY_LENGTHS), 0),
    }
    buffers
}

/// Both capacities and the lengths beside them. What is cut off may be in use, so that the count is too great for the buffer.
const ENTRY_LENGTHS: [usize; 6] = [511, 512, 513, 4095, 4096, 4097];

fn any_capacity(random: &mut Random) -> usize {
    random.pick(&[SMALL_ENTRY_WORDS, ENTRY_WORDS])
}

fn random_words(random: &mut Random) -> Buffers {
    let state = (0..STATE_WORDS).map(|_| random.word()).collect();
    let entries = (0..any_capacity(random)).map(|_| random.word()).collect();
    Buffers { state, entries, ..Buffers::default() }
}

fn wrong_length(random: &mut Random, buffers: &mut Buffers) {
    let length = |random: &mut Random, right: usize| match random.below(6) {
        0 => 0,
        1 => 1,
        2 => right - 1,
        3 => right + 1,
        4 => random.below(2 * right as u64) as usize,
        _ => right,
    };
    let filler = random.pick(&[0, 0, u64::MAX]);
    buffers.state.resize(length(random, STATE_WORDS), filler);
    buffers.entries.resize(length(random, buffers.entries.len()), filler);
}

/// One to three changes of words, most of them in use or just behind those in use.
fn damage(random: &mut Random, buffers: &mut Buffers) {
    for _ in 0..random.between(1, 3) {
        let head = Head::load(buffers.state[0]).0;
        let near = |random: &mut Random, first: u64, used: u64| (first + random.below(used + 2)) as usize;
        let index = match random.below(7) {
            0 => 0,
            1 => near(random, 1, head.client_count),
            2 => near(random, 17, head.next_ledger),
            3 => near(random, 272, head.list_length),
            4 => random.below(STATE_WORDS as u64) as usize,
            _ => STATE_WORDS,
        };
        if let Some(word) = buffers.state.get_mut(index) {
            damage_word(random, word);
        } else {
            let index = (random.below(head.entry_count + 2) as usize).min(buffers.entries.len() - 1);
            damage_word(random, &mut buffers.entries[index]);
        }
    }
}

fn damage_word(random: &mut Random, word: &mut u64) {
    *word = match random.below(8) {
        0 => random.word(),
        1 => 0,
        2 => word.wrapping_add(1 << random.below(64)),
        3 => word.wrapping_sub(1 << random.below(64)),
        _ => *word ^ (1 << random.below(64)),
    };
}

/// A count up to a limit, often at one of its ends.
fn any_size(random: &mut Random, limit: u64) -> u64 {
    match random.below(6) {
        0 => 0,
        1 => limit,
        2 => limit.saturating_sub(1),
        3 => random.below(limit + 1),
        _ => random.below(limit.min(12) + 1),
    }
}

/// A well-formed log that mostly no fresh log leads to.
pub fn well_formed(random: &mut Random) -> Buffers {
    let next_ledger = 1 + any_size(random, 255);
    let some = |size: u64| if next_ledger == 1 { 0 } else { size };
    let client_count = random.between(1, 16);
    let capacity = any_capacity(random);
    let head = Head {
        entry_count: some(any_size(random, capacity as u64)),
        next_ledger,
        list_length: some(any_size(random, 255)),
        leader: random.below(client_count),
        client_count,
    };
    let (mut state, mut entries) = (vec![0; STATE_WORDS], vec![0; capacity]);
    state[0] = head.word();
    for word in &mut state[1..=client_count as usize] {
        *word = any_client_word(random, &head);
    }
    for word in &mut state[17..16 + next_ledger as usize] {
        *word = any_ledger_word(random);
    }
    for word in &mut state[272..272 + head.list_length as usize] {
        *word = Place { ledger: random.between(1, next_ledger - 1) }.word();
    }
    fill_entries(random, &head, &mut entries);
    Buffers { state, entries, ..Buffers::default() }
}

/// Open, closed, closed by a finish or recovering; all but the last with a fence or without.
fn any_ledger_word(random: &mut Random) -> u64 {
    let fenced = random.below(2);
    let (open, version, fenced, recovering) =
        random.pick(&[(1, 0, fenced, 0), (0, 1, fenced, 0), (0, 2, fenced, 0), (0, 1, 1, 1)]);
    Ledger { open, version, fenced, recovering }.word()
}

fn any_client_word(random: &mut Random, head: &Head) -> u64 {
    let stage = random.below(7);
    let list_version = match random.below(8) {
        0 => NONE,
        1 => random.below(256),
        2 => 255,
        3 => (head.list_length + 1).min(255),
        4 => head.list_length.saturating_sub(1),
        _ => head.list_length,
    };
    let ledger = match random.below(5) {
        0 => 0,
        1 => head.next_ledger - 1,
        _ => random.below(head.next_ledger),
    };
    let (open, version, recovering) = match ledger {
        0 => (0, NONE, 0),
        // What a client at stage 6 remembers is mostly recovering.
        _ if stage == 6 && random.chance(70) => (0, 1, 1),
        _ => random.pick(&[(1, 0, 0), (0, 1, 0), (0, 2, 0), (0, 1, 1)]),
    };
    Client { leads: (stage != 0) as u64, stage, list_version, ledger, open, version, recovering }.word()
}

/// Entries whose ledger numbers never fall, in a few runs. In some logs every value is the greatest.
fn fill_entries(random: &mut Random, head: &Head, entries: &mut [u64]) {
    let greatest = random.below(8) == 0;
    let mut ledger = 1;
    let rise = 1 + random.below(head.entry_count.max(1));
    for word in &mut entries[..head.entry_count as usize] {
        if random.below(rise) == 0 && ledger < head.next_ledger - 1 {
            ledger += random.below(head.next_ledger - ledger);
        }
        let value = if greatest { u64::MAX } else { random.word() } >> 12;
        *word = Entry { ledger, client: random.below(head.client_count), value }.word();
    }
}
