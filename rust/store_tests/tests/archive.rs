//! Archives: a restored log is the same, a changed byte is found, and a wrong archive makes no log.

use cindrolf::{Capacity, Kind, Step};
use model::random::Random;
use std::path::Path;
use store::{Asked, Change, Error, Store};
use store_tests::scratch::Scratch;

/// Any request, with steps that no plan has and numbers that no step word has room for.
fn any(random: &mut Random) -> Vec<Asked> {
    let mut step = || {
        let client = random.below(3);
        let change = match random.below(24) {
            0 => Change::WriteScores(client, (0..random.below(12)).map(|_| random.below(400) as u16).collect()),
            1 => Change::SetMark(random.pick(&["a", "wash", "\u{1}two", "12345678"]).parse().unwrap()),
            2 => Change::DropMark(random.pick(&["a", "wash", "\u{1}two"]).parse().unwrap()),
            3 => Change::SetRights(client, (0x3FF << 54) & !(1 << random.between(50, 63))),
            4 => Change::Step(random.pick(&[255, 256, u64::MAX]), Step::FETCH),
            5 => Change::Step(client, Step::write(random.pick(&[0, 1 << 52, u64::MAX]))),
            6..14 => Change::Step(client % 2, random.pick(&[Step::BECOME, Step::FETCH, Step::CREATE, Step::APPEND])),
            14..20 => Change::Step(client % 2, Step::write(random.below(1 << 52))),
            _ => Change::Step(client, Step::new(Kind::from_number(random.below(10)).unwrap(), random.below(100))),
        };
        let note = random.pick(&[None, None, Some(""), Some("read/1"), Some("léger\n\0")]).map(str::to_owned);
        Asked { change, note }
    };
    (0..6).map(|_| step()).collect()
}

/// All that a log tells.
fn told(store: &mut Store) -> Vec<String> {
    let mut all = Vec::new();
    store
        .each_row(|row| {
            all.push(format!("{row:?}"));
            Ok(())
        })
        .unwrap();
    let latest = store.latest().unwrap();
    all.push(format!("{} {:?} {:?}", latest.last_row(), latest.marks(), latest.rights()));
    all.push(format!("{:?} {:?} {:?}", latest.chain(), latest.total().map(|total| total.to_string()), latest.sums()));
    all.push(format!("{:?} {:?}", latest.log().state(), latest.log().entries()));
    all
}

/// A log with rows of every kind, by two processes.
fn mixed(file: &Path, seed: u64, capacity: Capacity) -> Store {
    let mut random = Random::new(seed);
    let mut store = Store::create(file, 3, capacity).unwrap();
    for round in 0..100 {
        store.set_process_name(if round % 7 < 3 { "one" } else { "the other\n" }).unwrap();
        store.take_all(&any(&mut random)).unwrap();
    }
    store
}

#[test]
fn what_is_restored_is_the_same() {
    let room = Scratch::in_memory();
    for (seed, capacity) in [(1, Capacity::Small), (2, Capacity::Large), (3, Capacity::Large)] {
        let name = |name: &str| room.file(&format!("{name}-{seed}"));
        let mut store = mixed(&name("run.db"), seed, capacity);
        assert!(store.latest().unwrap().rows() > 100);
        store.archive_to(name("run.archive")).unwrap();
        let bytes = std::fs::read(name("run.archive")).unwrap();
        assert_eq!(store.archive().unwrap(), bytes);
        Store::restore(&bytes, name("again.db")).unwrap();
        let mut again = Store::open(name("again.db")).unwrap();
        assert_eq!(told(&mut again), told(&mut store));
        assert_eq!(again.check().unwrap(), store.check().unwrap());
        assert_eq!(again.archive().unwrap(), bytes);
        // It is a log that goes on as the first does.
        let more = any(&mut Random::new(seed));
        assert_eq!(again.take_all(&more).unwrap(), store.take_all(&more).unwrap());
        // Neither is written over.
        assert_eq!(store.archive_to(name("run.archive")), Err(Error::Exists));
        assert_eq!(Store::restore(&bytes, name("again.db")), Err(Error::Exists));
    }
}

#[test]
fn a_log_without_a_row() {
    let room = Scratch::in_memory();
    let bytes = Store::create(room.file("run.db"), 16, Capacity::Small).unwrap().archive().unwrap();
    Store::restore(&bytes, room.file("again.db")).unwrap();
    let mut again = Store::open(room.file("again.db")).unwrap();
    let view = again.latest().unwrap().view().unwrap();
    assert_eq!((view.client_count(), view.capacity()), (16, Capacity::Small));
    assert_eq!(again.check().unwrap().rows, 0);
}

// The format, by a log whose archive is written out here.
#[test]
fn the_bytes() {
    let room = Scratch::in_memory();
    let mut store = Store::create(room.file("run.db"), 2, Capacity::Large).unwrap();
    store.set_process_name("p").unwrap();
    let noted = Asked { change: Change::Step(0, Step::BECOME), note: Some("n".into()) };
    let mark = Change::SetMark("m".parse().unwrap());
    store.take_all(&[noted, mark.into(), Change::WriteScores(0, vec![40, 372]).into()]).unwrap();
    let mut times = Vec::new();
    let row = |row: store::JournalRow<'_>| {
        times.push(row.time.unwrap() as u64);
        Ok(())
    };
    store.each_row(row).unwrap();
    let chain = store.last_row().unwrap().chain;
    let sections: [&[u64]; 9] = [
        &[1, 2, 4096, 3, (chain >> 64) as u64, chain as u64],
        &[1 << 60, 0xF << 60 | 11, 10 << 60 | 2],
        &[0, u64::from(b'm') << 56],
        &[1 << 32; 3],
        &[0, 1, 2],
        &times,
        &[1, 1, 1],
        &[2, 0, 0],
        &[1],
    ];
    let mut bytes = b"cindrolf archive\x01\0\0\0\0\0\0\0".to_vec();
    for words in sections {
        bytes.extend((words.len() as u64).to_le_bytes());
        // 2026-13 in words: differences, and then the most significant bytes of all, the next of all, and so on.
        let earlier = [0].into_iter().chain(words.iter().copied());
        let differences: Vec<u64> = words.iter().zip(earlier).map(|(word, before)| word.wrapping_sub(before)).collect();
        for place in (0..8).rev() {
            bytes.extend(differences.iter().map(|difference| (difference >> (8 * place)) as u8));
        }
    }
    for section in [&b"p"[..], b"n", &[40, 0, 116, 1]] {
        bytes.extend((section.len() as u64).to_le_bytes());
        bytes.extend(section);
    }
    bytes.extend(digest::sha256(&bytes));
    assert_eq!(store.archive().unwrap(), bytes);
}

#[test]
fn a_changed_byte_is_found() {
    let room = Scratch::in_memory();
    let bytes = mixed(&room.file("run.db"), 7, Capacity::Small).archive().unwrap();
    let to = room.file("again.db");
    let refused = |bytes: &[u8]| match Store::restore(bytes, &to) {
        Err(Error::NoArchive(why)) => why,
        other => panic!("{other:?}"),
    };
    for at in (0..bytes.len()).step_by(11).chain([15, 16, 23, 24, bytes.len() - 33, bytes.len() - 1]) {
        let mut changed = bytes.clone();
        changed[at] ^= 1 << (at % 8);
        refused(&changed);
    }
    for length in [0, 1, 15, 16, 23, 24, 47, 48, 100, bytes.len() - 33, bytes.len() - 1] {
        refused(&bytes[..length]);
    }
    assert_eq!(refused(&[&bytes[..], b"x"].concat()), "a byte of it was changed, or it was cut");
    assert!(!to.exists());
}

// What somebody has made with a digest of its own: sections of any lengths, and rows that are none. A time, a process or a
// note may be another, which no decision looks at; the rows are those of the log, or nothing is made.
#[test]
fn a_forged_archive() {
    let room = Scratch::in_memory();
    let mut store = mixed(&room.file("run.db"), 8, Capacity::Small);
    let (bytes, last) = (store.archive().unwrap(), store.last_row());
    let content = &bytes[..bytes.len() - 32];
    let (to, mut whys) = (room.file("again.db"), std::collections::BTreeSet::new());
    let mut restore = |content: &[u8]| match Store::restore(&[content, &digest::sha256(content)].concat(), &to) {
        Err(Error::NoArchive(why)) => {
            let why = why.split(|letter: char| letter.is_ascii_digit()).next().unwrap_or_default();
            whys.insert(why.to_owned());
            assert!(!to.exists());
        }
        Ok(()) => {
            assert_eq!(Store::open(&to).unwrap().last_row(), last);
            std::fs::remove_file(&to).unwrap();
        }
        other => panic!("{other:?}"),
    };
    let mut random = Random::new(9);
    for _ in 0..300 {
        let mut forged = content.to_vec();
        // Half of them in the first sections.
        let end = if random.below(2) == 0 { 90 } else { content.len() as u64 };
        forged[random.between(16, end - 1) as usize] ^= 1 << random.below(8);
        restore(&forged);
        restore(&content[..random.between(24, content.len() as u64 - 1) as usize]);
    }
    assert!(whys.len() >= 5, "{whys:?}");
}
