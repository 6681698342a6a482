//! Recovering ledgers: which words are well formed, what finish refuses, and logs that are older than they.

use cindrolf::{Error, Finish, LogRef, Refusal, calls};
use model::layout::{Client, Head, Ledger, NONE, client_index, ledger_index};
use model::{Answer, words};

/// A log of one client, which remembers ledger 1 as it is given here, at stage 6, and ledger 1 as it is stored.
fn log(memory: Client, stored: u64) -> (Vec<u64>, Vec<u64>) {
    let (mut state, entries) = (vec![0; 527], vec![0; 4096]);
    state[0] = Head { entry_count: 0, next_ledger: 2, list_length: 0, leader: 0, client_count: 1 }.word();
    state[client_index(0)] = memory.word();
    state[ledger_index(1)] = stored;
    (state, entries)
}

const RECOVERING: Ledger = Ledger { open: 0, version: 1, fenced: 1, recovering: 1 };

fn finishing(ledger: u64, open: u64, version: u64, recovering: u64) -> Client {
    Client { leads: 1, stage: 6, list_version: 0, ledger, open, version, recovering }
}

// By the reference: open with version 0, closed with version 1 or 2, each fenced or not, or recovering, fenced, with version 1.
#[test]
fn every_ledger_word() {
    let mut formed = vec![];
    for fields in 0..1 << 11 {
        let word = fields << 53;
        let (state, entries) = log(finishing(1, 0, 1, 1), word);
        if LogRef::new(&state, &entries).well_formed() {
            formed.push(word);
        }
    }
    let expected: [u64; 7] = [
        0x0080_0000_0000_0000,
        0x00C0_0000_0000_0000,
        0x00E0_0000_0000_0000,
        0x0100_0000_0000_0000,
        0x0140_0000_0000_0000,
        0x8000_0000_0000_0000,
        0x8040_0000_0000_0000,
    ];
    assert_eq!(formed, expected);
}

// The same of what is remembered, which has no fence; and with number 0 only flag 0, version none, and not recovering.
#[test]
fn every_memory() {
    for ledger in [0, 1, 2] {
        let mut formed = vec![];
        for open in 0..2 {
            for version in 0..512 {
                for recovering in 0..2 {
                    let (state, entries) = log(finishing(ledger, open, version, recovering), RECOVERING.word());
                    if LogRef::new(&state, &entries).well_formed() {
                        formed.push((open, version, recovering));
                    }
                }
            }
        }
        let expected: &[(u64, u64, u64)] = match ledger {
            0 => &[(0, NONE, 0)],
            1 => &[(0, 1, 0), (0, 1, 1), (0, 2, 0), (1, 0, 0)],
            _ => &[],
        };
        assert_eq!(formed, expected, "ledger {ledger}");
    }
}

#[test]
fn every_stage() {
    for stage in 0..8 {
        let memory = Client { leads: (stage != 0) as u64, stage, ..finishing(1, 0, 1, 1) };
        let (state, entries) = log(memory, RECOVERING.word());
        assert_eq!(LogRef::new(&state, &entries).well_formed(), stage < 7, "stage {stage}");
    }
}

// Finish, from every memory and every stored ledger that are well formed: 9 in four cases, behind where the stored version is higher.
#[test]
fn what_finish_answers() {
    let impossible = Err(Error::Refused(Refusal::ImpossibleMemory));
    let memories = [(0, 0, NONE, 0), (1, 1, 0, 0), (1, 0, 1, 0), (1, 0, 2, 0), (1, 0, 1, 1)];
    let stored = [(1, 0, 0, 0), (1, 0, 1, 0), (0, 1, 0, 0), (0, 1, 1, 0), (0, 2, 0, 0), (0, 2, 1, 0), (0, 1, 1, 1)];
    for (number, open, version, recovering) in memories {
        for fields in stored {
            let ledger = Ledger { open: fields.0, version: fields.1, fenced: fields.2, recovering: fields.3 };
            let (mut state, mut entries) = log(finishing(number, open, version, recovering), ledger.word());
            let before = state.clone();
            let expected = match (recovering, fields.1, fields.3) {
                (1, 2, _) => Ok(Finish::Behind),
                (1, 1, 1) => Ok(Finish::Done),
                _ => impossible,
            };
            assert_eq!(
                calls::finish(&mut state, &mut entries, 0),
                expected,
                "{number} {version} {recovering} {fields:?}"
            );
            let stage = Client::load(state[client_index(0)]).0.stage;
            let after = Ledger::load(state[ledger_index(1)]).0;
            match expected {
                Ok(Finish::Done) => {
                    assert_eq!((stage, after), (3, Ledger { open: 0, version: 2, fenced: 1, recovering: 0 }));
                }
                Ok(Finish::Behind) => assert_eq!((stage, after), (1, ledger)),
                Err(_) => assert_eq!(state, before),
            }
        }
    }
}

// A log written before there were recovering ledgers: client 1 has closed ledger 1, which is fenced with version 1, and leads on.
#[test]
fn an_older_log_goes_on() {
    let (mut state, mut entries) = (vec![0; 527], vec![0; 4096]);
    assert_eq!(words::fresh(&mut state, &mut entries, 2), Answer::Done);
    state[0] = Head { entry_count: 1, next_ledger: 2, list_length: 1, leader: 1, client_count: 2 }.word();
    state[client_index(0)] = 0xD008_0C00_0000_0000;
    state[client_index(1)] = 0xB008_0C00_0000_0000;
    state[ledger_index(1)] = 0x00C0_0000_0000_0000;
    state[272] = 1 << 56;
    entries[0] = (1 << 56) | 7;
    assert_eq!(calls::write(&mut state, &mut entries, 0, 8), Err(Error::Refused(Refusal::LedgerFenced)));
    assert_eq!(calls::create(&mut state, &mut entries, 1), Ok(()));
    assert_eq!(state[ledger_index(1)], 0x00C0_0000_0000_0000);
}
