//! The server's side of a log, as docs/SHARING.md requires of an engine: tested by SQL, and compared with rows whose
//! chain values are made here.

use cindrolf_server_tests::laboratory::Laboratory;
use cindrolf_server_tests::sql_rows::{
    Chain, SqlStep, after, append, array, bytes, fresh, lines, mark, rights, step, write,
};
use std::collections::BTreeMap;
use std::sync::atomic::{AtomicBool, Ordering};

/// The id of a request of this start.
fn id(start: u64, count: u64) -> u64 {
    (start << 32) + count
}

/// How many rows these requests come to, and the chain value of the last.
fn known(mut chain: Chain, requests: &[(u64, Vec<SqlStep>)]) -> (u64, Chain) {
    let mut rows = 0;
    for (id, steps) in requests {
        for (part, step) in (0..).zip(steps) {
            chain = after(chain, *id, part, step);
            rows += 1;
        }
    }
    (rows, chain)
}

// The two rows of docs/SHARING.md, and row 0 as Python's hashlib gives it.
#[test]
fn the_chain_values_of_the_document() {
    let Some(lab) = Laboratory::of("the_chain_values_of_the_document") else { return };
    let value = |before: &str, rest: &str| {
        lab.ask("postgres", &format!("SELECT cindrolf.chain_value('\\x{before}', 4294967296, {rest})"))
            .replace("\\x", "")
    };
    let first = value(&"00".repeat(16), "0, 8::smallint, 0, '\\x00000000000000c9'");
    assert_eq!(first, "ae200b99a32c5bd4fb9a419961ed760c");
    assert_eq!(value(&first, "1, 10::smallint, 1, '\\x28007401'"), "03fbf7df876ad7b4804720974319b0d8");
    assert_eq!(bytes(&fresh(2, 4096)), "'\\x97e3beeaa5b465ced5c68800b0faa978'::bytea");
}

#[test]
fn requests_are_added_whole_at_the_end() {
    let Some(lab) = Laboratory::of("requests_are_added_whole_at_the_end") else { return };
    let (log, chain) = lab.create("run");
    let (start, other) = (lab.start("c0", log), lab.start("administrator", log));
    let scores = SqlStep { kind: 10, client: Some(0), input: vec![40, 0, 116, 1] };
    let of_c0 = [
        (id(start, 0), vec![step(1, 0), step(3, 0), step(6, 0), step(7, 0)]),
        (id(start, 1), vec![write(0, 201)]),
        (id(start, 2), vec![write(0, u64::MAX), scores, step(9, 0), mark(*b"wash\0\0\0\0")]),
    ];
    let of_administrator = [(id(other, 0), vec![rights(99, 5), rights(1, u64::MAX << 54), mark([255; 8])])];
    let all = [&of_c0[..], &of_administrator].concat();
    for (count, (id, steps)) in all.iter().enumerate() {
        let who = if count < of_c0.len() { "c0" } else { "administrator" };
        let place = known(chain, &all[..count]).0;
        // Somebody who knows no row is placed just as well as one who knows all.
        let from = if count % 2 == 0 { (0, chain) } else { known(chain, &all[..count]) };
        assert_eq!(lab.append(who, log, from, *id, steps), place as i64);
    }
    assert_eq!(lab.rows(log), lines(chain, &all));
    let told = lab.ask("analyst", "SELECT DISTINCT role, process FROM cindrolf.rows ORDER BY role");
    assert_eq!(told, "administrator|a test\nc0|a test");
    // Another log is not concerned.
    let (second, _) = lab.create("next");
    assert_eq!(lab.append("c0", second, (0, chain), id(lab.start("c0", second), 0), &[write(0, 1)]), 0);
    assert_eq!((lab.rows(log).len(), lab.rows(second).len()), (12, 1));
}

#[test]
fn an_id_is_found_again() {
    let Some(lab) = Laboratory::of("an_id_is_found_again") else { return };
    let (log, chain) = lab.create("run");
    let start = lab.start("c0", log);
    let requests: Vec<(u64, Vec<SqlStep>)> =
        (0..5).map(|count| (id(start, count), (0..=count).map(|value| write(0, value)).collect())).collect();
    for (count, (id, steps)) in requests.iter().enumerate() {
        let from = known(chain, &requests[..count]);
        assert_eq!(lab.append("c0", log, from, *id, steps), from.0 as i64);
    }
    let before = lab.rows(log);
    for (count, (id, steps)) in requests.iter().enumerate() {
        let place = known(chain, &requests[..count]).0 as i64;
        for from in [(0, chain), known(chain, &requests[..2]), known(chain, &requests)] {
            assert_eq!(lab.append("c0", log, from, *id, steps), place);
            // Whatever else is sent with it.
            assert_eq!(lab.append("c0", log, from, *id, &vec![write(0, 9); 7]), place);
        }
        assert_eq!(lab.ask("c0", &format!("SELECT cindrolf.settle({log}, {id})")), place.to_string());
    }
    assert_eq!(lab.ask("c0", &format!("SELECT cindrolf.settle({log}, {})", id(start, 5))), "-1");
    assert_eq!(lab.rows(log), before);
    assert_eq!(before, lines(chain, &requests));
}

#[test]
fn another_history_is_said() {
    let Some(lab) = Laboratory::of("another_history_is_said") else { return };
    let (log, chain) = lab.create("run");
    let start = lab.start("c0", log);
    let requests = [(id(start, 0), vec![write(0, 1), write(0, 2)]), (id(start, 1), vec![write(0, 3)])];
    for (count, (id, steps)) in requests.iter().enumerate() {
        assert_eq!(lab.append("c0", log, known(chain, &requests[..count]), *id, steps), 2 * count as i64);
    }
    let last = known(chain, &requests);
    let (new, steps) = (id(start, 2), [write(0, 4)]);
    for other in [(0, last.1), (1, chain), (2, last.1), (3, chain), (3, [0; 16]), (4, last.1), (u64::MAX, chain)] {
        let other = (other.0 as i64 as u64, other.1);
        let sent = append(log, other, new, &steps).replace("18446744073709551615", "-1");
        assert_eq!(lab.ask("c0", &sent), "-1", "{other:?}");
        // Nor is an id found for somebody with another history.
        assert_eq!(lab.ask("c0", &sent.replace(&new.to_string(), &id(start, 0).to_string())), "-1", "{other:?}");
    }
    // No log, and a start that this log never gave: both were lost with what came before.
    assert_eq!(lab.append("c0", log + 1, (0, chain), new, &steps), -1);
    assert_eq!(lab.append("c0", log, last, id(start + 1, 0), &steps), -1);
    assert_eq!(lab.append("c0", log, last, id(0, 1), &steps), -1);
    assert_eq!(lab.append("c0", log, last, id(u64::from(u32::MAX), 0), &steps), -1);
    assert_eq!(lab.rows(log), lines(chain, &requests));
    assert_eq!(lab.append("c0", log, last, new, &steps), 3);
}

// A lost end, and other rows in its place: docs/SHARING.md, test 4. The owner has to break the table for it.
#[test]
fn rows_that_are_lost_and_replaced() {
    let Some(lab) = Laboratory::of("rows_that_are_lost_and_replaced") else { return };
    let (log, chain) = lab.create("run");
    let start = lab.start("c0", log);
    let requests: Vec<(u64, Vec<SqlStep>)> = (0..3).map(|count| (id(start, count), vec![write(0, count)])).collect();
    for (count, (id, steps)) in requests.iter().enumerate() {
        assert_eq!(lab.append("c0", log, known(chain, &requests[..count]), *id, steps), count as i64);
    }
    let lose = format!("DELETE FROM cindrolf.rows WHERE log = {log} AND seq > 1");
    assert!(lab.cluster.sql(&lose).expect_err("a table of a log is kept").contains("55000"));
    lab.ask("postgres", &format!("ALTER TABLE cindrolf.rows DISABLE TRIGGER USER; {lose}"));
    let first = known(chain, &requests[..1]);
    assert_eq!(lab.append("c0", log, first, id(start, 9), &[write(0, 9)]), 1);
    assert_eq!(lab.append("c0", log, first, requests[2].0, &requests[2].1), 2);
    assert_eq!(lab.append("c0", log, known(chain, &requests), id(start, 3), &[write(0, 3)]), -1);
}

/// What one of several clients sends: requests of one to three steps, each sent twice, with no row known.
fn sent(log: u64, chain: Chain, start: u64, client: u64, count: u64) -> (Vec<(u64, Vec<SqlStep>)>, String) {
    let steps = |nth: u64| (0..=nth % 3).map(|part| write(client, nth * 10 + part)).collect();
    let requests: Vec<(u64, Vec<SqlStep>)> = (0..count).map(|nth| (id(start, nth), steps(nth))).collect();
    let twice = requests
        .iter()
        .flat_map(|(id, steps)| [append(log, (0, chain), *id, steps), append(log, (0, chain), *id, steps)]);
    let text = twice.collect::<Vec<_>>().join(";\n");
    (requests, text)
}

/// Has each of them send its text, all at one moment, while another reads. Gives what each was answered.
fn all_at_once(lab: &Laboratory, log: u64, texts: &[(&str, &str)]) -> Vec<String> {
    let reads = AtomicBool::new(true);
    let gaps = format!("SELECT coalesce(max(seq), 0) - count(*) FROM cindrolf.rows WHERE log = {log}");
    std::thread::scope(|scope| {
        // Each read is a first part: no row is missing before the last.
        let reader = scope.spawn(|| {
            while reads.load(Ordering::Relaxed) {
                assert_eq!(lab.ask("analyst", &gaps), "0");
            }
        });
        let all: Vec<_> = texts.iter().map(|(who, text)| scope.spawn(|| lab.ask(who, text))).collect();
        let answers: Vec<_> = all.into_iter().map(std::thread::ScopedJoinHandle::join).collect();
        reads.store(false, Ordering::Relaxed);
        reader.join().expect("a reader");
        answers.into_iter().map(|answers| answers.expect("a client")).collect()
    })
}

#[test]
fn many_at_once() {
    let Some(lab) = Laboratory::of("many_at_once") else { return };
    let (log, chain) = lab.create("run");
    let people = ["c0", "c1", "c2", "elects_itself"];
    let work: Vec<_> = (0..8u64).map(|nth| (people[nth as usize % 4], nth % 4)).collect();
    let work: Vec<_> =
        work.iter().map(|&(who, client)| (who, sent(log, chain, lab.start(who, log), client, 40))).collect();
    let texts: Vec<_> = work.iter().map(|(who, (_, text))| (*who, text.as_str())).collect();
    let answers = all_at_once(&lab, log, &texts);
    let mut placed = BTreeMap::new();
    for ((_, (requests, _)), answers) in work.iter().zip(&answers) {
        let places: Vec<u64> = answers.lines().map(|line| line.parse().expect("a place")).collect();
        assert_eq!(places.len(), 2 * requests.len());
        for (request, both) in requests.iter().zip(places.chunks(2)) {
            assert_eq!(both[0], both[1], "sent again, it is the same");
            assert_eq!(placed.insert(both[0], request.clone()), None);
        }
    }
    // In the order of their places they are the table: as many requests as ids, whole, without a gap.
    let in_order: Vec<_> = placed.values().cloned().collect();
    assert_eq!(lab.rows(log), lines(chain, &in_order));
    let mut next = 0;
    for (place, (_, steps)) in &placed {
        assert_eq!(*place, next);
        next += steps.len() as u64;
    }
}

/// What has the wrong client or input for its kind, or no kind.
fn no_steps() -> Vec<SqlStep> {
    let with = |kind, client, input: &[u8]| SqlStep { kind, client, input: input.into() };
    vec![
        with(0, Some(0), &[0]),
        with(1, None, &[]),
        with(8, None, &[0; 8]),
        with(8, Some(0), &[0; 7]),
        with(8, Some(0), &[]),
        with(10, Some(0), &[1]),
        with(10, None, &[]),
        with(11, Some(0), &[1; 8]),
        with(11, None, &[1; 7]),
        with(12, None, &[1; 9]),
        with(13, None, &[0; 8]),
        with(13, Some(0), &[0; 9]),
        with(14, Some(0), &[]),
        with(10, Some(0), &vec![0; limits::FIELD_LIMIT as usize + 2]),
    ]
}

#[test]
fn what_is_no_step_leaves_no_row() {
    let Some(lab) = Laboratory::of("what_is_no_step_leaves_no_row") else { return };
    let (log, chain) = lab.create("run");
    let start = lab.start("c0", log);
    let mut sent: Vec<String> = Vec::new();
    for (count, bad) in (0..).zip(no_steps()) {
        // Steps before and after it are good.
        sent.push(append(log, (0, chain), id(start, count), &[write(0, 1), bad, write(0, 2)]));
    }
    let good = append(log, (0, chain), id(start, 99), &[write(0, 1), write(0, 2)]);
    let replaced = |from: &str, to: &str| {
        assert!(good.contains(from), "{from}");
        good.replace(from, to)
    };
    sent.extend([
        replaced("ARRAY[8, 8]", "ARRAY[8]"),
        replaced("ARRAY[8, 8]", "ARRAY[8, NULL]"),
        replaced("ARRAY[8, 8]", "ARRAY[8, -1]"),
        replaced("ARRAY[0, 0]", "ARRAY[0, 0, 0]"),
        replaced("ARRAY[0, 0]", "ARRAY[]"),
        replaced("'a test', NULL", "'a test', ARRAY['one']"),
        replaced("'a test', NULL", &format!("'a test', ARRAY[NULL, '{}']", "n".repeat(limits::NOTE_LIMIT + 1))),
        replaced("'a test'", &format!("'{}'", "p".repeat(limits::PROCESS_LIMIT + 1))),
        append(log, (0, chain), id(start, 99), &[]),
    ]);
    for (statement, state) in sent.iter().zip(lab.states("c0", &sent)) {
        assert_eq!(state, "22023", "{statement}");
    }
    assert_eq!(lab.rows(log), Vec::<String>::new());
    let longest = replaced(
        "'a test', NULL",
        &format!("'{}', ARRAY[NULL, '{}']", "p".repeat(limits::PROCESS_LIMIT), "n".repeat(limits::NOTE_LIMIT)),
    );
    assert_eq!(lab.ask("c0", &longest), "0");
}

#[test]
fn logs_are_made_once() {
    let Some(lab) = Laboratory::of("logs_are_made_once") else { return };
    let (log, chain) = lab.create("run");
    let create = |name: &str, numbers: &str, chain: Chain| {
        format!("SELECT cindrolf.create_log('{name}', {numbers}, {})", bytes(&chain))
    };
    assert_eq!(lab.ask("c1", &create("run", "1, 4, 4096", chain)), "f");
    assert_eq!(lab.ask("c1", &create("run", "1, 2, 512", fresh(2, 512))), "f");
    assert_eq!(lab.ask("c1", &create("small", "1, 2, 512", fresh(2, 512))), "t");
    let long = "n".repeat(limits::LOG_NAME_LIMIT);
    let wrong = [
        create("other", "1, 2, 4096", chain),
        create("other", "1, 17, 4096", fresh(17, 4096)),
        create("other", "1, 0, 4096", fresh(0, 4096)),
        create("other", "1, 4, 1000", fresh(4, 1000)),
        create("", "1, 4, 4096", chain),
        create(&format!("{long}n"), "1, 4, 4096", chain),
        create("other", "1, 4, 4096", chain).replace("'other'", "NULL"),
    ];
    assert_eq!(lab.states("c1", &wrong), vec!["22023"; wrong.len()]);
    let made = "SELECT name, rules, client_count, entry_words, chain, role FROM cindrolf.logs ORDER BY log";
    assert_eq!(lab.ask("analyst", made).lines().count(), 2);
    assert_eq!(lab.ask("c1", &create(&long, "1, 4, 4096", chain)), "t");
    assert_eq!(log, 1);
    // Of many who make the same log at one moment one does.
    let made: Vec<String> = std::thread::scope(|scope| {
        let each: Vec<_> =
            (0..6).map(|_| scope.spawn(|| lab.ask("c2", &create("race", "1, 4, 4096", chain)))).collect();
        each.into_iter().map(|one| one.join().expect("a client")).collect()
    });
    assert_eq!(made.iter().filter(|made| *made == "t").count(), 1, "{made:?}");
}

// The same message makes a log once, however often it is sent; another one of its name makes none.
#[test]
fn a_creation_is_found_again() {
    let Some(lab) = Laboratory::of("a_creation_is_found_again") else { return };
    let create = |clients: u64, creation: &str| {
        format!("SELECT cindrolf.create_log('run', 1, {clients}, 4096, {}, {creation})", bytes(&fresh(clients, 4096)))
    };
    for _ in 0..3 {
        assert_eq!(lab.ask("c1", &create(4, "-77")), "t");
    }
    for (who, other) in
        [("c1", create(4, "77")), ("c1", create(2, "-77")), ("c1", create(4, "NULL")), ("c0", create(4, "-77"))]
    {
        assert_eq!(lab.ask(who, &other), "f", "{who}: {other}");
    }
    assert_eq!(lab.ask("analyst", "SELECT client_count, creation, role FROM cindrolf.logs"), "4|-77|c1");
    // The answer to a message that is sent again waits for the disk and the standby, as a commit that has written does.
    let written = "SELECT pg_current_xact_id_if_assigned() IS NOT NULL";
    let transaction = |create: &str| lab.ask("c1", &format!("BEGIN; {create}; {written}; COMMIT"));
    assert_eq!(transaction(&create(4, "-77")), "t\nt");
}

// Neither an append nor a start leaves a dead version of the log's row, which a long query would keep.
#[test]
fn no_counter_row() {
    let Some(lab) = Laboratory::of("no_counter_row") else { return };
    let (log, chain) = lab.create("run");
    let start = lab.start("c0", log);
    let place = "SELECT ctid, pg_relation_size('cindrolf.logs') FROM cindrolf.logs";
    let before = lab.ask("postgres", place);
    let sent: String =
        (0..300).map(|count| append(log, (0, chain), id(start, count), &[write(0, count)]) + ";\n").collect();
    assert_eq!(lab.ask("c0", &sent).lines().count(), 300);
    assert_eq!(lab.ask("postgres", place), before);
}

// A session keeps its plans. Those that are made while the tables are small must serve large ones too.
#[test]
fn no_call_goes_through_a_table() {
    let Some(lab) = Laboratory::of("no_call_goes_through_a_table") else { return };
    let (log, chain) = lab.create("run");
    let start = lab.start("c0", log);
    assert_eq!(lab.append("c0", log, (0, chain), id(start, 0), &[write(0, 0)]), 0);
    lab.ask("auditor", &answer(log, 1, &[0], &[None]));
    lab.ask("postgres", "ANALYZE");
    let scans = "SELECT sum(seq_scan) FROM pg_stat_user_tables WHERE schemaname = 'cindrolf' AND relname IN ";
    let scans = format!("{scans} ('rows', 'starts', 'answers', 'logs')");
    let before = lab.ask("postgres", &scans);
    let again = format!("SELECT cindrolf.start({log}) > 0; SELECT cindrolf.settle({log}, 1);\n");
    let sent = (1..20).map(|count| append(log, (1, known_one(chain, start)), id(start, count), &[write(0, count)]));
    lab.ask("c0", &sent.map(|sent| format!("{sent};\n{again}")).collect::<String>());
    let answers = (2..20).map(|row| answer(log, row, &[0], &[None]) + ";\n");
    lab.ask("auditor", &answers.collect::<String>());
    assert_eq!(lab.ask("postgres", &scans), before);
    assert_eq!(lab.rows(log).len(), 20);
}

/// The chain value of the only row of that test.
fn known_one(chain: Chain, start: u64) -> Chain {
    after(chain, id(start, 0), 0, &write(0, 0))
}

/// Appends so many writes of a client in one request.
fn fill(log: u64, chain: Chain, id: u64, client: u64, rows: u64) -> String {
    let of = |of: &str, item: &str| format!("array_fill({item}::{of}, ARRAY[{rows}])");
    let (kinds, clients) = (of("smallint", "8"), of("bigint", &client.to_string()));
    let inputs = of("bytea", "'\\x0000000000000001'");
    format!("SELECT cindrolf.append({log}, 0, {}, {id}, {kinds}, {clients}, {inputs}, NULL, NULL)", bytes(&chain))
}

#[test]
fn nobody_uses_up_the_rows_of_the_others() {
    let Some(lab) = Laboratory::of("nobody_uses_up_the_rows_of_the_others") else { return };
    let (log, chain) = lab.create("run");
    let (start, other) = (lab.start("c0", log), lab.start("c1", log));
    let most = u64::from(limits::CLIENT_ROW_LIMIT);
    assert_eq!(lab.ask("c1", &fill(log, chain, id(other, 0), 1, 5)), "0");
    assert_eq!(lab.states("c0", &[fill(log, chain, id(start, 0), 0, most + 1)]), ["54000"]);
    // Up to where rows are counted, over it by one, and on.
    for (count, rows) in [(1, 30_000), (2, 9_995), (3, 1), (4, most - 39_996)] {
        lab.ask("c0", &fill(log, chain, id(start, count), 0, rows));
    }
    assert_eq!(lab.states("c0", &[fill(log, chain, id(start, 5), 0, 1)]), ["54000"]);
    assert_eq!(lab.ask("c1", &fill(log, chain, id(other, 1), 1, 5)), (most + 5).to_string());
    // Marks, rights and clients that no log has are counted together.
    let marks = fill(log, chain, id(other, 2), 1, u64::from(limits::OTHER_ROW_LIMIT) - 1);
    let marks =
        marks.replace("array_fill(8::", "array_fill(11::").replace("array_fill(1::bigint", "array_fill(NULL::bigint");
    lab.ask("c1", &marks);
    let more = |who: &str, id, steps: &[SqlStep]| lab.states(who, &[append(log, (0, chain), id, steps)]);
    assert_eq!(more("c1", id(other, 3), &[mark([1; 8]), mark([2; 8])]), ["54000"]);
    assert_eq!(more("c1", id(other, 3), &[mark([1; 8])]), ["00000"]);
    assert_eq!(more("c1", id(other, 4), &[mark([1; 8])]), ["54000"]);
    assert_eq!(more("election", id(lab.start("election", log), 0), &[step(0, 99)]), ["54000"]);
    assert_eq!(more("administrator", id(lab.start("administrator", log), 0), &[rights(1, 0)]), ["54000"]);
    assert_eq!(more("c1", id(other, 5), &[write(1, 1)]), ["00000"]);
    let counted = "SELECT counts = cindrolf.counted(log) FROM cindrolf.rows ORDER BY seq DESC LIMIT 1";
    assert_eq!(lab.ask("postgres", counted), "t");
    assert_eq!(lab.ask("postgres", "SELECT count(*) FROM cindrolf.rows"), (most + 10 + 40_000 + 1).to_string());
}

#[test]
fn start_numbers_are_never_given_again() {
    let Some(lab) = Laboratory::of("start_numbers_are_never_given_again") else { return };
    let (log, _) = lab.create("run");
    let standby = lab.cluster.standby(lab.cluster.port(), None);
    let mut given: Vec<u64> = (0..3).map(|_| lab.start("c0", log)).collect();
    assert_eq!(given, [1 << 20, (1 << 20) + 1, (1 << 20) + 2]);
    assert_eq!(lab.start("c1", lab.create("next").0), 1 << 20, "each log counts for itself");
    // Both go on: as if the standby had lost what the primary gave last, and straight after the promotion.
    standby.promote();
    for server in [&lab.cluster, &standby].into_iter().cycle().take(8) {
        let start = server.sql_as("c0", &format!("SELECT cindrolf.start({log})")).expect("a start");
        given.push(start.parse().expect("a number"));
    }
    assert_eq!(given[4], 2 << 20);
    let all = given.len();
    given.sort_unstable();
    given.dedup();
    assert_eq!(given.len(), all);
    // The last of a timeline is given, and then none; nor to a role that has had its share.
    let insert = "INSERT INTO cindrolf.starts (log, start, role, nth)";
    lab.ask("postgres", &format!("{insert} VALUES ({log}, (2 << 20) - 2, 'c1', 1)"));
    assert_eq!((lab.start("c1", log), lab.start("c1", log), lab.start("c0", log)), ((2 << 20) - 1, 0, 0));
    let share = u64::from(limits::CLIENT_ROW_LIMIT);
    let (second, _) = lab.create("third");
    lab.ask("postgres", &format!("{insert} VALUES ({second}, (1 << 20) + 5, 'c2', {share} - 1)"));
    assert_eq!((lab.start("c2", second), lab.start("c2", second)), ((1 << 20) + 6, 0));
    assert_eq!(lab.start("c0", second), (1 << 20) + 7);
    assert_eq!(lab.states("c0", &["SELECT cindrolf.start(99)".into()]), ["42704"]);
}

fn answer(log: u64, first: i64, answers: &[u64], stored: &[Option<u64>]) -> String {
    let answers = array("bigint", answers.iter().map(u64::to_string));
    let stored = array("bigint", stored.iter().map(|value| cindrolf_server_tests::sql_rows::number(*value)));
    format!("SELECT cindrolf.answer({log}, {first}, {answers}, {stored})")
}

#[test]
fn answers_go_on_without_a_gap() {
    let Some(lab) = Laboratory::of("answers_go_on_without_a_gap") else { return };
    let (log, chain) = lab.create("run");
    let start = lab.start("c0", log);
    lab.append("c0", log, (0, chain), id(start, 0), &[step(1, 0), step(3, 0), write(0, 1), step(6, 0), step(7, 0)]);
    let states = lab.states(
        "auditor",
        &[
            answer(log, 2, &[0], &[None]),
            answer(log, 0, &[0], &[None]),
            answer(log, 1, &[0, 0], &[None]),
            answer(log, 1, &[0, 0, 262], &[None, None, None]),
            answer(log, 5, &[0], &[None]),
            // Sent again; and with one more.
            answer(log, 1, &[0, 0, 262], &[None, None, None]),
            answer(log, 2, &[0, 262, 0], &[None, None, None]),
            answer(log, 2, &[0, 262, 1], &[None, None, None]),
            answer(log, 3, &[262, 0], &[Some(1), None]),
            answer(log, 5, &[0, 0], &[None, None]),
            answer(log + 1, 1, &[0], &[None]),
            answer(log, 5, &[0], &[None]),
        ],
    );
    let done = "22023 22023 22023 00000 22023 00000 00000 22023 22023 22023 22023 00000";
    assert_eq!(states.join(" "), done);
    let kept = lab.ask("analyst", "SELECT seq, answer, value IS NULL FROM cindrolf.answers ORDER BY seq");
    assert_eq!(kept, "1|0|t\n2|0|t\n3|262|t\n4|0|t\n5|0|t");
    assert_eq!(lab.ask("analyst", "SELECT * FROM cindrolf.audits"), "run|5|5|0");
}

// Each of several audits tells all answers, in its own pieces.
#[test]
fn audits_at_one_moment() {
    let Some(lab) = Laboratory::of("audits_at_one_moment") else { return };
    let (log, chain) = lab.create("run");
    lab.ask("c0", &fill(log, chain, id(lab.start("c0", log), 0), 0, 600));
    std::thread::scope(|scope| {
        for size in [1, 7, 50, 600] {
            let lab = &lab;
            scope.spawn(move || {
                let pieces = (0..600).step_by(size).map(|from| {
                    let some: Vec<u64> = (from..600.min(from + size)).map(|row| 256 + row as u64 % 2).collect();
                    answer(log, from as i64 + 1, &some, &vec![None; some.len()]) + ";\n"
                });
                lab.ask("auditor", &pieces.collect::<String>());
            });
        }
    });
    let all = "SELECT count(*), max(seq), sum((answer <> 256 + (seq + 1) % 2)::integer) FROM cindrolf.answers";
    assert_eq!(lab.ask("analyst", all), "600|600|0");
}

#[test]
fn the_schema_is_run_once() {
    let Some(lab) = Laboratory::of("the_schema_is_run_once") else { return };
    let (log, chain) = lab.create("run");
    lab.append("c0", log, (0, chain), id(lab.start("c0", log), 0), &[write(0, 1)]);
    let fault = lab.cluster.sql(&store::schema()).expect_err("it is there");
    assert!(fault.contains("42P06") && fault.contains("cindrolf"), "{fault}");
    assert_eq!(lab.rows(log).len(), 1);
    assert_eq!(lab.ask("analyst", "SELECT cindrolf.version()"), store::SCHEMA_VERSION.to_string());
    // Another database of the same server has the same roles.
    lab.ask("postgres", "CREATE DATABASE second");
    lab.ask("postgres", &format!("\\connect second\n{}\nSELECT count(*) FROM cindrolf.logs;", store::schema()));
    // Notes need an encoding that has every letter.
    lab.ask("postgres", "CREATE DATABASE latin ENCODING 'LATIN1' TEMPLATE template0");
    let fault = lab.cluster.sql(&format!("\\connect latin\n{}", store::schema())).expect_err("no UTF-8");
    assert!(fault.contains("LATIN1"), "{fault}");
}
