//! Compares the two halves of the model: LedgerChaining's terms and the reference's words, on random histories; and the
//! reference's examples.

use model::histories::Profile;
use model::layout::{Client, ENTRY_WORDS, Entry, Head, NONE, SMALL_ENTRY_WORDS, STATE_WORDS, client_index};
use model::random::Random;
use model::source::{Source, Taken};
use model::{Answer, Step, rights, words};

fn fresh(client_count: u64) -> (Vec<u64>, Vec<u64>) {
    fresh_with(client_count, ENTRY_WORDS)
}

fn fresh_with(client_count: u64, capacity: usize) -> (Vec<u64>, Vec<u64>) {
    let (mut state, mut entries) = (vec![7; STATE_WORDS], vec![7; capacity]);
    assert_eq!(words::fresh(&mut state, &mut entries, client_count), Answer::Done);
    (state, entries)
}

#[test]
fn histories_agree() {
    let mut random = Random::new(1);
    let mut most = [(0, 0); 2];
    for round in 0..60 {
        let clients = random.between(1, 16);
        let profile = Profile::ALL[round % Profile::ALL.len()];
        let size = round / Profile::ALL.len() % 2;
        let mut source = Source::init_with(clients, [SMALL_ENTRY_WORDS, ENTRY_WORDS][size]);
        let (mut state, mut entries) = fresh_with(clients, source.capacity);
        for _ in 0..5_000 {
            let (client, step) = profile.next(&mut random, &source);
            let has_right = random.chance(98);
            let answer =
                words::step_with(&mut state, &mut entries, &lent(clients, client, step, has_right), client, step);
            let agree = match source.step_with(has_right, client, step) {
                Taken::Accepted(expected) => answer == expected,
                Taken::Limit(number) => answer == Answer::Refused(number),
                Taken::Forbidden => {
                    matches!(answer, Answer::Refused(number) if source.forbids_with(has_right, client, number))
                }
            };
            assert!(agree, "{client} {step:?}: {answer:?}");
            assert!((&state, &entries) == (&source.buffers().0, &source.buffers().1), "after {client} {step:?}");
        }
        readings_agree(&source, &state, &entries);
        most[size] = (most[size].0.max(source.md_next_lid), most[size].1.max(source.next_entry_id));
    }
    assert_eq!(most, [(256, 512), (256, 4096)], "the histories reach both limits");
}

// Both lengths are a log's and no other is; the limits of the count and of the entries follow the length.
#[test]
fn capacities() {
    for length in [0, 1, 511, 513, 4095, 4097, 8192] {
        let (mut state, mut entries) = (vec![0; STATE_WORDS], vec![0; length]);
        assert_eq!(words::fresh(&mut state, &mut entries, 1), Answer::Refused(1), "{length} words");
        assert_eq!(words::step(&mut state, &mut entries, 0, Step::Become), Answer::Refused(1), "{length} words");
    }
    for capacity in [512, 4096] {
        let (mut state, mut entries) = fresh_with(1, capacity);
        let mut step = |step| words::step(&mut state, &mut entries, 0, step);
        for taken in [Step::Become, Step::Fetch, Step::Create, Step::Append] {
            assert_eq!(step(taken), Answer::Done);
        }
        for number in 0..capacity as u64 {
            assert_eq!(step(Step::Write(1)), Answer::Entry { number, place: number });
        }
        assert_eq!(step(Step::Write(1)), Answer::Refused(13));
        state[0] = Head { entry_count: capacity as u64 + 1, ..Head::load(state[0]).0 }.word();
        assert_eq!(words::step(&mut state, &mut entries, 0, Step::Fetch), Answer::Refused(2));
    }
    // What is one entry too many for 512 words is none for 4,096.
    let (mut state, mut entries) = fresh(1);
    for taken in [Step::Become, Step::Fetch, Step::Create, Step::Append] {
        assert_eq!(words::step(&mut state, &mut entries, 0, taken), Answer::Done);
    }
    for _ in 0..513 {
        words::step(&mut state, &mut entries, 0, Step::Write(1));
    }
    assert!(words::well_formed(&state, &entries));
    assert!(!words::well_formed(&state, &entries[..512]));
}

/// All rights, or all but the client's to this step.
fn lent(count: u64, client: u64, step: Step, has_right: bool) -> Vec<u64> {
    let mut lent = rights::all(count);
    if !has_right && client < count {
        lent[client as usize] &= !rights::bit(step);
    }
    lent
}

fn readings_agree(source: &Source, state: &[u64], entries: &[u64]) {
    let mut output = vec![7; ENTRY_WORDS];
    let count = words::read_chain(state, entries, &mut output).unwrap();
    assert_eq!(output[..count], source.chain());
    assert!(output[count..].iter().all(|&word| word == 7));
    for ledger in 0..300 {
        let part = words::read_ledger(state, entries, ledger);
        assert_eq!(part.ok().map(|part| entries[part].to_vec()), source.ledger(ledger));
    }
}

// The reference's session.
#[test]
fn session() {
    use Answer::{Behind, Done, Entry, Refused};
    let (mut state, mut entries) = fresh(3);
    let steps = [
        (0, Step::Become, Done),
        (0, Step::Fetch, Done),
        (0, Step::Create, Done),
        (0, Step::Append, Done),
        (0, Step::Write(7), Entry { number: 0, place: 0 }),
        (1, Step::Name, Done),
        (1, Step::Become, Done),
        (1, Step::Fetch, Done),
        (1, Step::CloseLast, Done),
        (1, Step::Finish, Done),
        (0, Step::Write(8), Refused(12)),
        (1, Step::Create, Done),
        (1, Step::Append, Done),
        (1, Step::Write(9), Entry { number: 1, place: 0 }),
        (0, Step::CloseOwn, Behind),
    ];
    for (client, step, expected) in steps {
        assert_eq!(words::step(&mut state, &mut entries, client, step), expected, "{client} {step:?}");
    }
    let mut output = [0; 2];
    assert_eq!(words::read_chain(&state, &entries, &mut output), Ok(2));
    assert_eq!(output, [7, (1 << 52) + 9]);
    assert_eq!(state[17..19], [0x0140000000000000, 0x8000000000000000]);
}

// The reference's examples of refusals.
#[test]
fn examples() {
    let (mut state, mut entries) = fresh(3);
    let mut step = |client, step| words::step(&mut state, &mut entries, client, step);
    assert_eq!(step(0, Step::Name), Answer::Refused(4));
    assert_eq!(step(1, Step::Become), Answer::Refused(6));
    assert_eq!(step(0, Step::Abdicate), Answer::Refused(7));
    for taken in [Step::Become, Step::Fetch, Step::Create, Step::Append] {
        assert_eq!(step(0, taken), Answer::Done);
    }
    assert_eq!(step(0, Step::Write(1 << 52)), Answer::Refused(11));
    assert_eq!(step(0, Step::Write((1 << 52) - 1)), Answer::Entry { number: 0, place: 0 });
    assert_eq!(words::step(&mut state[..526], &mut entries, 0, Step::Name), Answer::Refused(1));
    assert_eq!(words::fresh(&mut state, &mut entries, 17), Answer::Refused(17));
    assert_eq!(words::fresh(&mut state, &mut entries, 16), Answer::Done);
}

// A ledger without an entry is closed as any other: without a fence by its owner, and not at all where another was faster.
#[test]
fn empty_ledgers() {
    let (mut state, mut entries) = fresh(2);
    let mut step = |client, step| words::step(&mut state, &mut entries, client, step);
    for taken in [Step::Become, Step::Fetch, Step::Create, Step::Append, Step::CloseOwn, Step::Create, Step::Append] {
        assert_eq!(step(0, taken), Answer::Done, "{taken:?}");
    }
    for taken in [Step::Name, Step::Become, Step::Fetch, Step::CloseLast] {
        assert_eq!(step(1, taken), Answer::Done);
    }
    assert_eq!(step(0, Step::CloseOwn), Answer::Behind);
    assert_eq!(state[17..20], [0x0080000000000000, 0x00E0000000000000, 0]);
    assert_eq!([0, 1].map(|client| Client::load(state[client_index(client)]).0.stage), [0, 6]);
    for ledger in [1, 2] {
        assert_eq!(words::read_ledger(&state, &entries, ledger).map(|part| part.len()), Ok(0));
    }
}

// A value is looked at after the lead, the stage and the memory, and before the fence.
#[test]
fn wide_values() {
    let wide = Step::Write(1 << 52);
    let (mut state, mut entries) = fresh(2);
    let mut step = |client, step| words::step(&mut state, &mut entries, client, step);
    assert_eq!(step(2, wide), Answer::Refused(3));
    assert_eq!(step(0, wide), Answer::Refused(7));
    for taken in [Step::Become, Step::Fetch, Step::Create, Step::Append] {
        assert_eq!(step(0, taken), Answer::Done);
        let refusal = if taken == Step::Append { 11 } else { 8 };
        assert_eq!(step(0, wide), Answer::Refused(refusal), "after {taken:?}");
    }
    for taken in [Step::Name, Step::Become, Step::Fetch, Step::CloseLast] {
        assert_eq!(step(1, taken), Answer::Done);
    }
    assert_eq!(step(0, wide), Answer::Refused(11));
    assert_eq!(step(0, Step::Write((1 << 52) - 1)), Answer::Refused(12));
    let forgetful = Client { leads: 1, stage: 5, list_version: 1, ledger: 0, open: 0, version: NONE, recovering: 0 };
    state[client_index(0)] = forgetful.word();
    assert_eq!(words::step(&mut state, &mut entries, 0, wide), Answer::Refused(9));
}

// The checks of the scores stand between the client's number and its lead.
#[test]
fn scores() {
    let good = Step::WriteScores(&[0, 40, 372]);
    let (none, too_high) = (Step::WriteScores(&[]), Step::WriteScores(&[0, 373]));
    let (mut state, mut entries) = fresh(2);
    assert_eq!(words::step(&mut state[..526], &mut entries, 2, none), Answer::Refused(1));
    let mut step = |client, step| words::step(&mut state, &mut entries, client, step);
    assert_eq!(step(2, none), Answer::Refused(3));
    assert_eq!(step(1, none), Answer::Refused(18));
    assert_eq!(step(1, Step::WriteScores(&[373; 4_001])), Answer::Refused(18));
    assert_eq!(step(1, too_high), Answer::Refused(19));
    assert_eq!(step(1, good), Answer::Refused(7));
    assert_eq!(step(0, Step::Become), Answer::Done);
    assert_eq!(step(0, good), Answer::Refused(8));
    for taken in [Step::Fetch, Step::Create, Step::Append] {
        assert_eq!(step(0, taken), Answer::Done);
    }
    assert_eq!(step(0, good), Answer::Entry { number: 0, place: 0 });
    assert_eq!(step(0, too_high), Answer::Refused(19));
    for taken in [Step::Name, Step::Become, Step::Fetch, Step::CloseLast] {
        assert_eq!(step(1, taken), Answer::Done);
    }
    assert_eq!(step(0, none), Answer::Refused(18));
    assert_eq!(step(0, good), Answer::Refused(12));
    assert_eq!(Entry::load(entries[0]), Entry { ledger: 1, client: 0, value: 1_100_000_000_501 });
    state[0] |= 1;
    assert_eq!(words::step(&mut state, &mut entries, 2, none), Answer::Refused(2));
}
