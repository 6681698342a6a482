//! A log on a server, as the store uses it: the same answers as in a file, exactly once, and lost rows are found.

use cindrolf::{Capacity, EntryNumber, Kind, Progress, Refusal, Step, value_of};
use cindrolf_server_tests::cluster::{Cluster, address};
use cindrolf_server_tests::controllers::{address_of, laboratory};
use cindrolf_server_tests::proxy::{Proxy, Then, Way};
use model::random::Random;
use std::time::{Duration, Instant};
use store::{Asked, Change, Error, Store, Stored};

/// A log of two clients that client 0 may write to, and its store.
fn written(cluster: &Cluster, log: &str) -> Store {
    let mut store = Store::create(address_of(cluster, 0, log), 2, Capacity::Large).expect("a new log");
    lead(&mut store, 0);
    store
}

/// The address of a log through a port of this computer, for the controller of a client.
fn at(client: u64, port: u16, log: &str) -> String {
    format!("{}/{log}", address(&format!("controller_{client}"), &[port]))
}

/// Has a client lead until it may write.
fn lead(store: &mut Store, client: u64) {
    while let Some(kind) = store.latest().unwrap().log().advise(client).unwrap() {
        if kind == Kind::Write {
            return;
        }
        let _ = store.take(client, Step::new(kind, 0)).unwrap();
    }
    panic!("client {client} is not named");
}

fn values(store: &mut Store) -> Vec<u64> {
    store.latest().unwrap().chain().unwrap().into_iter().map(value_of).collect()
}

#[test]
fn a_handover() {
    let Some(cluster) = laboratory("a_handover", "") else { return };
    let mut host = written(&cluster, "run 42");
    assert_eq!(host.write(0, 201).unwrap().number, EntryNumber(0));
    let again = Store::create(address_of(&cluster, 1, "run 42"), 2, Capacity::Large);
    assert_eq!(again.err(), Some(Error::Exists));
    assert_eq!(Store::open(address_of(&cluster, 1, "nowhere")).err(), Some(Error::Missing));
    let mut guest = Store::open(address_of(&cluster, 1, "run 42")).unwrap();
    guest.name(1).unwrap();
    guest.become_leader(1).unwrap();
    guest.fetch(1).unwrap();
    let _ = guest.close_last(1).unwrap();
    // The host's copy is old: its write is refused in its place.
    assert_eq!(host.write(0, 202), Err(Error::Refused(Refusal::LedgerFenced)));
    let _ = guest.finish(1).unwrap();
    guest.create_ledger(1).unwrap();
    assert_eq!(guest.append(1), Ok(Progress::Done));
    assert_eq!(guest.write(1, 203).unwrap().number, EntryNumber(1));
    assert_eq!(host.latest().unwrap().total().unwrap().to_string(), "0.000000000404");
    let checked = host.check().unwrap();
    assert_eq!((checked.rows, checked.wrong), (14, vec![]));
    assert_eq!(host.last_row(), guest.last_row());
    // A step for another client is the server's to refuse.
    assert!(matches!(host.close_own(1), Err(Error::Forbidden(_))));
    assert_eq!(host.latest().unwrap().rows(), 14);
}

/// Any step, mostly one that may be accepted.
fn any(random: &mut Random) -> Change {
    let client = random.below(3);
    let kind = Kind::from_number(random.below(10)).unwrap();
    match random.below(20) {
        0 => Change::WriteScores(client, vec![40, 372, random.below(400) as u16]),
        1 => Change::SetMark(random.pick(&["a", "b", "c"]).parse().unwrap()),
        2 => Change::DropMark(random.pick(&["a", "b", "c"]).parse().unwrap()),
        3 => Change::SetRights(client, (0x3FF << 54) & !(1 << random.between(50, 63))),
        4..12 => Change::Step(client % 2, random.pick(&[Step::BECOME, Step::FETCH, Step::CREATE, Step::APPEND])),
        12..16 => Change::Step(client % 2, Step::write(random.below(1 << 53))),
        _ => Change::Step(client, Step::new(kind, random.below(100))),
    }
}

// The same requests on a file and on a server: the same answers, words, marks and rights.
#[test]
fn as_in_a_file() {
    let Some(cluster) = laboratory("as_in_a_file", "") else { return };
    cluster.sql("CREATE ROLE everybody LOGIN; GRANT cindrolf_controller, cindrolf_admin TO everybody").unwrap();
    cluster
        .sql("SELECT cindrolf.admit('everybody', client, client >= 0) FROM generate_series(-1, 15) AS client")
        .unwrap();
    let mut random = Random::new(21);
    for round in 0..6 {
        let folder = std::env::temp_dir().join(format!("cindrolf-both-{}-{round}", std::process::id()));
        std::fs::create_dir(&folder).unwrap();
        let mut file = Store::create(folder.join("run.db"), 3, Capacity::Small).unwrap();
        let mut server =
            Store::create(cluster.address("everybody", &format!("run {round}")), 3, Capacity::Small).unwrap();
        for _ in 0..30 {
            let request: Vec<Asked> = (0..random.between(1, 12)).map(|_| any(&mut random).into()).collect();
            assert_eq!(file.take_all(&request), server.take_all(&request), "round {round}: {request:?}");
        }
        let mut other = Store::open(cluster.address("everybody", &format!("run {round}"))).unwrap();
        for store in [&mut server, &mut other] {
            let (one, two) = (file.latest().unwrap(), store.latest().unwrap());
            assert_eq!((one.log().state(), one.log().entries()), (two.log().state(), two.log().entries()));
            assert_eq!((one.marks(), one.rights(), one.rows()), (two.marks(), two.rights(), two.rows()));
        }
        assert_eq!(server.check().map(|checked| checked.rows), file.check().map(|checked| checked.rows));
        std::fs::remove_dir_all(&folder).unwrap();
    }
}

// Two stores whose copies are old write in turn: each is told the place of its own row.
#[test]
fn races() {
    let Some(cluster) = laboratory("races", "") else { return };
    let mut one = written(&cluster, "run");
    let mut other = Store::open(address_of(&cluster, 0, "run")).unwrap();
    for round in 0..50 {
        assert_eq!(one.write(0, 2 * round).unwrap().number.0, 2 * round);
        assert_eq!(other.write(0, 2 * round + 1).unwrap().number.0, 2 * round + 1);
    }
    let everything: Vec<u64> = (0..100).collect();
    assert_eq!((values(&mut one), values(&mut other)), (everything.clone(), everything));
    assert_eq!(one.check().unwrap().rows, 104);
}

// The network is cut at each byte of a request, and at each byte of its answer: the request is stored once, and answered.
#[test]
fn cut_at_any_byte() {
    let Some(cluster) = laboratory("cut_at_any_byte", "") else { return };
    drop(written(&cluster, "run"));
    let proxy = Proxy::to(cluster.port());
    let mut store = Store::open(at(0, proxy.port(), "run")).unwrap();
    store.write(0, 0).unwrap();
    let (mut next, mut cuts) = (1, 0);
    for way in [Way::ToServer, Way::ToClient] {
        let before = proxy.let_through(way);
        store.write(0, next).unwrap();
        next += 1;
        let length = proxy.let_through(way) - before;
        assert!(length > 10, "{length}");
        for bytes in (0..length).step_by(7).chain([length - 1]) {
            proxy.limit(way, bytes, Then::End);
            std::thread::scope(|scope| {
                scope.spawn(|| {
                    std::thread::sleep(Duration::from_millis(30));
                    proxy.heal();
                });
                assert_eq!(store.write(0, next).unwrap().number.0, next, "{bytes} of {length}");
            });
            (next, cuts) = (next + 1, cuts + 1);
        }
    }
    assert!(cuts > 20, "{cuts}");
    assert_eq!(values(&mut store), (0..next).collect::<Vec<u64>>());
    assert_eq!(store.check().unwrap().rows, next as i64 + 4);
}

// The network is cut at bytes of what a create sends, and of what it is answered: the log is made once, and its maker is
// told so. Somebody who makes another of this name is told that there is one.
#[test]
fn a_create_cut_at_any_byte() {
    let Some(cluster) = laboratory("a_create_cut_at_any_byte", "") else { return };
    let proxy = Proxy::to(cluster.port());
    let create = |log: &str| Store::create(at(0, proxy.port(), log), 2, Capacity::Large).map(drop);
    let mut cuts = 0;
    for way in [Way::ToServer, Way::ToClient] {
        let before = proxy.let_through(way);
        create(&format!("{way:?}")).unwrap();
        let length = proxy.let_through(way) - before;
        assert!(length > 300, "{length}");
        for bytes in (0..length).step_by(9) {
            proxy.limit(way, bytes, Then::End);
            let log = format!("{way:?} {bytes}");
            std::thread::scope(|scope| {
                scope.spawn(|| {
                    std::thread::sleep(Duration::from_millis(15));
                    proxy.heal();
                });
                assert_eq!(create(&log), Ok(()), "{bytes} of {length}");
            });
            let other = Store::create(address_of(&cluster, cuts % 2, &log), 2, Capacity::Large);
            assert_eq!(other.err(), Some(Error::Exists), "{bytes} of {length}");
            cuts += 1;
        }
    }
    assert_eq!(cluster.sql("SELECT count(*) FROM cindrolf.logs").unwrap(), (cuts + 2).to_string());
}

// A log that is copied to the server, all of it once, wherever the network is cut.
#[test]
fn a_copy_cut_at_any_byte() {
    let Some(cluster) = laboratory("a_copy_cut_at_any_byte", "") else { return };
    let folder = std::env::temp_dir().join(format!("cindrolf-cut-copy-{}", std::process::id()));
    std::fs::create_dir(&folder).unwrap();
    let mut file = Store::create(folder.join("run.db"), 2, Capacity::Small).unwrap();
    lead(&mut file, 0);
    file.write(0, 7).unwrap();
    let proxy = Proxy::to(cluster.port());
    let to = |log: &str| format!("{}/{log}", address("administrator", &[proxy.port()]));
    for way in [Way::ToServer, Way::ToClient] {
        let before = proxy.let_through(way);
        file.copy_to(to(&format!("{way:?}"))).unwrap();
        let length = proxy.let_through(way) - before;
        // The last byte may be one of the others, too.
        for (cut, bytes) in (0..length).step_by(61).chain([length - 1]).enumerate() {
            proxy.limit(way, bytes, Then::End);
            let log = format!("{way:?} {cut}");
            std::thread::scope(|scope| {
                scope.spawn(|| {
                    std::thread::sleep(Duration::from_millis(15));
                    proxy.heal();
                });
                assert_eq!(file.copy_to(to(&log)), Ok(()), "{bytes} of {length}");
            });
            assert_eq!(Store::open(cluster.address("administrator", &log)).unwrap().last_row(), file.last_row());
            assert_eq!(file.copy_to(to(&log)), Err(Error::Exists));
        }
    }
    std::fs::remove_dir_all(&folder).unwrap();
}

// Where nothing is heard of a creation for as long as it waits, nobody says that there is no log.
#[test]
fn a_creation_that_is_not_known() {
    let Some(cluster) = laboratory("a_creation_that_is_not_known", "") else { return };
    let proxy = Proxy::to(cluster.port());
    let create = |log: &str| Store::create(at(0, proxy.port(), log), 2, Capacity::Large).map(drop);
    let before = proxy.let_through(Way::ToClient);
    create("a").unwrap();
    let length = proxy.let_through(Way::ToClient) - before;
    // The whole creation is sent. Of the answers only some come, or all but that to the creation itself.
    for bytes in [length / 2, length * 3 / 4] {
        proxy.limit(Way::ToClient, bytes, Then::Silence);
        let log = format!("after {bytes}");
        let created = create(&log);
        proxy.cut();
        proxy.heal();
        match created {
            Ok(()) => {}
            Err(error @ Error::Unknown { request: 0, .. }) => {
                assert_eq!(error.stored(), Stored::Unknown);
                assert!(error.to_string().ends_with("look whether it is there"), "{error}");
            }
            // Nothing of it was sent.
            Err(Error::Unreachable(_)) => {
                assert_eq!(Store::open(address_of(&cluster, 0, &log)).err(), Some(Error::Missing))
            }
            Err(error) => panic!("{bytes} of {length}: {error}"),
        }
    }
}

// Where nothing is heard until the deadline, it is not known; later the id tells.
#[test]
fn what_is_not_known_is_settled_later() {
    let Some(cluster) = laboratory("what_is_not_known_is_settled_later", "") else { return };
    drop(written(&cluster, "run"));
    let proxy = Proxy::to(cluster.port());
    let mut store = Store::open(at(0, proxy.port(), "run")).unwrap();
    store.write(0, 0).unwrap();
    store.set_patience(Duration::from_millis(300));
    for (way, stored) in [(Way::ToServer, false), (Way::ToClient, true)] {
        proxy.limit(way, 5, Then::Silence);
        let error = store.write(0, 7).unwrap_err();
        assert_eq!(error.stored(), Stored::Unknown, "{error}");
        let Error::Unknown { request, .. } = error else { panic!("{error}") };
        proxy.cut();
        proxy.heal();
        store.set_patience(Duration::from_secs(10));
        let place = store.settle(request).unwrap();
        assert_eq!(place.is_some(), stored, "{way:?}");
        // It goes on, with ids of another start.
        store.write(0, 1).unwrap();
        store.set_patience(Duration::from_millis(300));
    }
    store.set_patience(Duration::from_secs(10));
    assert_eq!(values(&mut store), [0, 1, 7, 1]);
    // Where nothing could be sent at all, nothing is stored, and that is known.
    store.write(0, 8).unwrap();
    proxy.lead_to(1);
    proxy.cut();
    store.set_patience(Duration::from_millis(300));
    // It finds that the connection it had is gone.
    assert!(matches!(store.latest().err(), Some(Error::Unreachable(_))));
    let error = store.write(0, 9).unwrap_err();
    assert!(matches!(error, Error::Unreachable(_)) && error.stored() == Stored::No, "{error}");
    proxy.lead_to(cluster.port());
    store.set_patience(Duration::from_secs(10));
    assert_eq!(store.write(0, 10).unwrap().number, EntryNumber(5));
}

// The server loses its last rows, as in a failover to a copy that lags: whoever has read them finds it, and stops.
#[test]
fn lost_rows() {
    let Some(cluster) = laboratory("lost_rows", "") else { return };
    let mut store = written(&cluster, "run");
    let mut other = Store::open(address_of(&cluster, 0, "run")).unwrap();
    for value in 0..5 {
        store.write(0, value).unwrap();
    }
    cluster.sql("SET session_replication_role = replica; DELETE FROM cindrolf.rows WHERE seq > 6").unwrap();
    // The other has read none of them, and goes on.
    other.write(0, 70).unwrap();
    // Whether the request that finds it was stored before the rows were lost is not known; the next is not sent.
    assert_eq!(store.write(0, 9).unwrap_err().stored(), Stored::Unknown);
    for _ in 0..2 {
        assert_eq!(store.write(0, 9), Err(Error::OtherHistory));
    }
    assert_eq!(store.latest().err(), Some(Error::OtherHistory));
    assert_eq!(values(&mut Store::open(address_of(&cluster, 0, "run")).unwrap()), [0, 1, 70]);
}

#[test]
fn servers_that_will_not_do() {
    let Some(cluster) = laboratory("servers_that_will_not_do", "") else { return };
    drop(written(&cluster, "run"));
    let open = || Store::open(address_of(&cluster, 0, "run")).err().map(|error| error.to_string());
    assert_eq!(open(), None);
    cluster.set("full_page_writes = off");
    std::thread::sleep(Duration::from_millis(500));
    assert!(open().unwrap().contains("fsync or full_page_writes off"), "{:?}", open());
    cluster.set("full_page_writes = on\nfsync = off");
    std::thread::sleep(Duration::from_millis(500));
    assert!(open().unwrap().contains("fsync or full_page_writes off"), "{:?}", open());
    cluster.set("fsync = on");
    std::thread::sleep(Duration::from_millis(500));
    assert_eq!(open(), None);
    cluster.sql("CREATE DATABASE empty").unwrap();
    let empty = address_of(&cluster, 0, "run").replace("/postgres/", "/empty/");
    assert!(Store::open(empty).err().unwrap().to_string().contains("'cindrolf schema'"));
    let reader = Store::open(cluster.address("analyst", "run")).unwrap().write(0, 1).unwrap_err();
    assert!(matches!(reader, Error::Forbidden(_)), "{reader}");
}

// A newcomer 2.5 ms away each way takes over from a writer that goes on as fast as it can: named to its first accepted write
// within a second, twenty times.
#[test]
fn a_handover_beside_a_busy_writer() {
    let Some(cluster) = laboratory("a_handover_beside_a_busy_writer", "") else { return };
    let proxy = Proxy::to(cluster.port());
    proxy.delay(Duration::from_micros(2_500));
    for round in 0..20 {
        let log = format!("run {round}");
        let mut busy = written(&cluster, &log);
        let mut newcomer = Store::open(at(1, proxy.port(), &log)).unwrap();
        let end = std::sync::atomic::AtomicBool::new(false);
        let took = std::thread::scope(|scope| {
            scope.spawn(|| {
                let mut value = 0;
                while !end.load(std::sync::atomic::Ordering::Relaxed) {
                    let _ = busy.write(0, value);
                    value += 1;
                }
            });
            std::thread::sleep(Duration::from_millis(20));
            let began = Instant::now();
            newcomer.name(1).unwrap();
            lead(&mut newcomer, 1);
            newcomer.write(1, 7).unwrap();
            let took = began.elapsed();
            end.store(true, std::sync::atomic::Ordering::Relaxed);
            took
        });
        assert!(took < Duration::from_secs(1), "round {round}: {took:?}");
    }
}

// One controller falls silent at each byte of what it sends. The others' longest wait stays short.
#[test]
fn a_silent_controller_stops_nobody() {
    let Some(cluster) = laboratory("a_silent_controller_stops_nobody", "") else { return };
    let mut store = written(&cluster, "run");
    let proxy = Proxy::to(cluster.port());
    let silent = at(0, proxy.port(), "run");
    let length = {
        let mut other = Store::open(&silent).unwrap();
        let before = proxy.let_through(Way::ToServer);
        other.write(0, 1).unwrap();
        proxy.let_through(Way::ToServer) - before
    };
    let mut longest = Duration::ZERO;
    for bytes in 0..=length {
        let mut other = Store::open(&silent).unwrap();
        other.set_patience(Duration::from_millis(1));
        proxy.limit(Way::ToServer, bytes, Then::Silence);
        std::thread::scope(|scope| {
            scope.spawn(|| {
                let _ = other.write(0, 2);
            });
            std::thread::sleep(Duration::from_millis(3));
            for value in 0..3 {
                let began = Instant::now();
                store.write(0, value).unwrap();
                longest = longest.max(began.elapsed());
            }
            proxy.cut();
        });
        proxy.heal();
    }
    assert!(longest < Duration::from_millis(500), "{longest:?}");
}

#[test]
fn waiting_for_rows() {
    let Some(cluster) = laboratory("waiting_for_rows", "") else { return };
    let mut one = written(&cluster, "run");
    let mut other = Store::open(address_of(&cluster, 0, "run")).unwrap();
    assert_eq!(other.changed(Instant::now() + Duration::from_millis(30)), Ok(false));
    one.write(0, 7).unwrap();
    assert_eq!(other.changed(Instant::now() + Duration::from_secs(5)), Ok(true));
    assert_eq!(values(&mut other), [7]);
}

// The rows since the last look, each once, and again from any row on.
#[test]
fn rows_from_one_on() {
    let Some(cluster) = laboratory("rows_from_one_on", "") else { return };
    let mut one = written(&cluster, "run");
    let mut other = Store::open(address_of(&cluster, 0, "run")).unwrap();
    let rows_from = |store: &mut Store, first| {
        let mut rows = Vec::new();
        store.each_row_from(first, |row| {
            rows.push((row.number, row.reply));
            Ok(())
        })?;
        Ok::<_, Error>(rows)
    };
    let rows = rows_from(&mut other, 1).unwrap();
    let last = rows.len() as i64;
    assert_eq!(rows.last().map(|row| row.0), Some(last));
    assert_eq!(rows_from(&mut other, last + 1), Ok(vec![]));
    for place in 0..3 {
        one.write(0, 7).unwrap();
        let row = (last + 1 + place, format!("entry {place} place {place}"));
        assert_eq!(rows_from(&mut other, last + 1 + place), Ok(vec![row]));
    }
    let all = rows_from(&mut one, 1).unwrap();
    assert_eq!(all.len() as i64, last + 3);
    for first in 1..=last + 4 {
        assert_eq!(rows_from(&mut other, first).as_deref(), Ok(&all[first as usize - 1..]));
    }
}

/// All that a store tells of its rows, marks and rights.
fn everything(store: &mut Store) -> Vec<String> {
    let mut all = Vec::new();
    store
        .each_row(|row| {
            all.push(format!("{row:?}"));
            Ok(())
        })
        .unwrap();
    let latest = store.latest().unwrap();
    all.push(format!("{} {:?} {:?}", latest.last_row(), latest.marks(), latest.rights()));
    all
}

// From a file to a server and back: every row with its id, its time, its process and its note, the marks and the rights.
#[test]
fn copies_both_ways() {
    let Some(cluster) = laboratory("copies_both_ways", "") else { return };
    let folder = std::env::temp_dir().join(format!("cindrolf-copies-{}", std::process::id()));
    std::fs::create_dir(&folder).unwrap();
    let mut file = Store::create(folder.join("run.db"), 2, Capacity::Small).unwrap();
    file.set_process_name("sequencer 7's \\ own").unwrap();
    lead(&mut file, 0);
    let read = |change, note: &str| Asked { change, note: Some(note.into()) };
    let reads =
        [read(Change::Step(0, Step::write(7)), "it's read/1"), read(Change::WriteScores(0, vec![40, 372]), "é\\")];
    file.take_all(&[&reads[..], &[Change::Step(1, Step::FETCH).into()]].concat()).unwrap();
    file.set_mark("wash".parse().unwrap()).unwrap();
    file.revoke(1, cindrolf::Right::Name).unwrap();
    let wanted = everything(&mut file);
    assert_eq!(wanted.len(), 10);
    let address = cluster.address("administrator", "copied");
    file.copy_to(&address).unwrap();
    assert_eq!(file.copy_to(&address), Err(Error::Exists));
    let mut server = Store::open(&address).unwrap();
    assert_eq!(everything(&mut server), wanted);
    server.copy_to(folder.join("back.db")).unwrap();
    let mut back = Store::open(folder.join("back.db")).unwrap();
    assert_eq!(everything(&mut back), wanted);
    assert_eq!(back.check().map(|checked| (checked.rows, checked.wrong)), Ok((9, vec![])));
    // By an archive too, which is the same of both.
    let archive = server.archive().unwrap();
    assert_eq!(file.archive().unwrap(), archive);
    let restored = cluster.address("administrator", "restored");
    Store::restore(&archive, &restored).unwrap();
    assert_eq!(everything(&mut Store::open(&restored).unwrap()), wanted);
    // Controllers go on where it is, with ids of their own.
    assert_eq!(Store::open(address_of(&cluster, 0, "copied")).unwrap().write(0, 9).unwrap().number, EntryNumber(2));
    // Only an administrator copies, and what is refused leaves no log.
    let refused = file.copy_to(address_of(&cluster, 0, "other"));
    assert!(matches!(refused, Err(Error::Forbidden(_))), "{refused:?}");
    assert_eq!(Store::open(address_of(&cluster, 0, "other")).err(), Some(Error::Missing));
    std::fs::remove_dir_all(&folder).unwrap();
}

// The answers that the audit keeps are the library's, and the views go by them.
#[test]
fn an_audit() {
    let Some(cluster) = laboratory("an_audit", "") else { return };
    let mut store = written(&cluster, "run");
    for first in (0..2_500).step_by(250) {
        let request: Vec<Asked> =
            (first..first + 250).map(|value| Change::Step(0, Step::write(value)).into()).collect();
        store.take_all(&request).unwrap();
    }
    let mut auditor = Store::open(cluster.address("auditor", "run")).unwrap();
    assert_eq!(auditor.audit(), Ok(2_504));
    store.write(0, 1).unwrap();
    assert_eq!((auditor.audit(), auditor.audit()), (Ok(2_505), Ok(2_505)));
    let total = store.latest().unwrap().total().unwrap().to_string();
    let shown = cluster.sql_as("analyst", "SELECT entries, expected_errors FROM cindrolf.total WHERE log = 'run'");
    assert_eq!(shown, Ok(format!("2501|{total}")));
    // A controller has no say in it.
    store.write(0, 2).unwrap();
    assert!(matches!(store.audit(), Err(Error::Forbidden(_))));
}
