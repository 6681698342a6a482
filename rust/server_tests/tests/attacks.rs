//! What no role may do to a log on a server, tried by each role.

use cindrolf_server_tests::auditing::audit;
use cindrolf_server_tests::laboratory::{Laboratory, PEOPLE};
use cindrolf_server_tests::sql_rows::{Chain, SqlStep, append, bytes, lines, mark, rights, step, write};
use std::time::{Duration, Instant};

const TABLES: [&str; 6] = ["logs", "rows", "starts", "answers", "members", "admissions"];

const VIEWS: [&str; 10] =
    ["audits", "steps", "moves", "entries", "chain", "ledgers", "clients", "marks", "rights", "total"];

/// The modes in which a table is locked, but for that of a reader.
const LOCKS: [&str; 6] =
    ["ROW SHARE", "ROW EXCLUSIVE", "SHARE UPDATE EXCLUSIVE", "SHARE", "EXCLUSIVE", "ACCESS EXCLUSIVE"];

/// The word of all ten rights.
const ALL: u64 = 0xFFC0_0000_0000_0000;

fn everybody() -> impl Iterator<Item = &'static str> {
    PEOPLE.iter().map(|(who, _, _)| *who).chain(["stranger"])
}

/// A laboratory with a log in use, and somebody to whom nothing was granted.
fn in_use(test: &str) -> Option<(Laboratory, u64, Chain)> {
    let lab = Laboratory::of(test)?;
    lab.ask("postgres", "CREATE ROLE stranger LOGIN");
    let (log, chain) = lab.create("run");
    let start = lab.start("c0", log);
    let lead = [step(1, 0), step(3, 0), step(6, 0), step(7, 0), write(0, 201), write(0, 202)];
    assert_eq!(lab.append("c0", log, (0, chain), start << 32, &lead), 0);
    Some((lab, log, chain))
}

/// Everything that is in the tables.
fn content(lab: &Laboratory) -> String {
    let all = TABLES.map(|table| format!("SELECT '{table}', t.* FROM cindrolf.{table} AS t ORDER BY t;"));
    lab.ask("postgres", &all.join("\n"))
}

/// Sees that each of these is refused so, and changes nothing.
fn refused(lab: &Laboratory, who: &str, state: &str, statements: &[String]) {
    let before = content(lab);
    for (statement, found) in statements.iter().zip(lab.states(who, statements)) {
        assert_eq!(found, state, "{who}: {statement}");
    }
    assert!(content(lab) == before, "{who} changed something");
}

/// Every way to change or lock a table.
fn changes_of(table: &str) -> Vec<String> {
    let (column, value) = match table {
        "logs" => ("name", "'mine'"),
        "members" | "admissions" => ("client", "1"),
        _ => ("log", "1"),
    };
    let mut tried = vec![
        format!("INSERT INTO cindrolf.{table} OVERRIDING SYSTEM VALUE SELECT * FROM cindrolf.{table} LIMIT 1"),
        format!("INSERT INTO cindrolf.{table} DEFAULT VALUES"),
        format!("UPDATE cindrolf.{table} SET {column} = {value}"),
        format!("DELETE FROM cindrolf.{table}"),
        format!("TRUNCATE cindrolf.{table}"),
        format!("COPY cindrolf.{table} FROM PROGRAM 'true'"),
        format!("ALTER TABLE cindrolf.{table} DISABLE TRIGGER ALL"),
        format!("DROP TABLE cindrolf.{table} CASCADE"),
        format!("CREATE INDEX ON cindrolf.{table} ({column})"),
        format!("CREATE RULE r AS ON INSERT TO cindrolf.{table} DO INSTEAD NOTHING"),
        format!(
            "CREATE TRIGGER t BEFORE INSERT ON cindrolf.{table} EXECUTE FUNCTION suppress_redundant_updates_trigger()"
        ),
        format!("GRANT ALL ON cindrolf.{table} TO PUBLIC"),
    ];
    tried.extend(
        ["UPDATE", "NO KEY UPDATE", "SHARE", "KEY SHARE"]
            .map(|lock| format!("SELECT * FROM cindrolf.{table} FOR {lock}")),
    );
    tried.extend(LOCKS.map(|mode| format!("DO 'BEGIN LOCK TABLE cindrolf.{table} IN {mode} MODE; END'")));
    tried
}

#[test]
fn nobody_changes_or_locks_a_table() {
    let Some((lab, ..)) = in_use("nobody_changes_or_locks_a_table") else { return };
    audit(&lab, 1);
    let tried: Vec<String> = TABLES.iter().flat_map(|table| changes_of(table)).collect();
    for who in everybody() {
        let before = content(&lab);
        for (statement, found) in tried.iter().zip(lab.states(who, &tried)) {
            // A grant by somebody who has nothing to give is a warning, and gives nothing.
            let nothing_given = found == "01007" || found == "00000";
            assert!(
                found == "42501" || (statement.starts_with("GRANT") && nothing_given),
                "{who}: {statement}: {found}"
            );
        }
        assert!(content(&lab) == before, "{who} changed something");
    }
    // What the analyst could do after all those grants is still nothing.
    refused(&lab, "analyst", "42501", &tried[..4]);
}

#[test]
fn nobody_becomes_somebody_else() {
    let Some((lab, log, chain)) = in_use("nobody_becomes_somebody_else") else { return };
    for who in everybody() {
        let mut tried: Vec<String> = everybody()
            .chain(["postgres"])
            .filter(|other| *other != who)
            .flat_map(|other| [format!("SET ROLE {other}"), format!("SET SESSION AUTHORIZATION {other}")])
            .collect();
        tried.extend([
            format!("ALTER ROLE {who} SUPERUSER"),
            format!("GRANT cindrolf_admin TO {who}"),
            format!("GRANT pg_write_all_data TO {who}"),
            "CREATE ROLE another LOGIN".into(),
            "CREATE TABLE cindrolf.another (n integer)".into(),
            "ALTER SCHEMA cindrolf RENAME TO gone".into(),
            "DROP SCHEMA cindrolf CASCADE".into(),
            "ALTER FUNCTION cindrolf.append OWNER TO CURRENT_USER".into(),
            "CREATE OR REPLACE FUNCTION cindrolf.version() RETURNS integer LANGUAGE sql AS 'SELECT 2'".into(),
            "CREATE OR REPLACE VIEW cindrolf.audits AS SELECT 1".into(),
            "SELECT nextval('cindrolf.logs_log_seq')".into(),
        ]);
        refused(&lab, who, "42501", &tried);
    }
    // A role that it does have changes nothing: the server goes by who logged in.
    let start = lab.start("c1", log);
    let mut session = vec!["SET ROLE cindrolf_controller".to_owned()];
    session.push(append(log, (0, chain), start << 32, &[write(0, 1)]));
    session.push(append(log, (0, chain), start << 32, &[write(1, 1)]));
    assert_eq!(lab.states("c1", &session), ["00000", "42501", "00000"]);
    assert_eq!(lab.ask("analyst", "SELECT role FROM cindrolf.rows ORDER BY seq DESC LIMIT 1"), "c1");
}

/// A step of this kind, with any input that it may have.
fn of(kind: u64, client: u64) -> SqlStep {
    match kind {
        8 => write(client, 1),
        10 => SqlStep { kind, client: Some(client), input: vec![40, 0] },
        11 | 12 => SqlStep { kind, client: None, input: b"stranger".into() },
        13 => rights(client, ALL),
        _ => step(kind, client),
    }
}

/// Whether it is the step of one of them.
fn may_take(who: &str, kind: u64, client: u64) -> bool {
    match (who, kind) {
        ("election", 0) | ("administrator", 13) => true,
        ("elects_itself", 0) => client == 3,
        ("c0" | "c1" | "c2" | "elects_itself" | "election" | "administrator", 11 | 12) => true,
        ("c0", 1..=10) => client == 0,
        ("c1", 1..=10) => client == 1,
        ("c2", 1..=10) => client == 2,
        ("elects_itself", 1..=10) => client == 3,
        _ => false,
    }
}

#[test]
fn each_steps_for_its_own_client() {
    let Some((lab, log, chain)) = in_use("each_steps_for_its_own_client") else { return };
    // Clients that nobody is admitted to are tried too, and those that stand for something else in the list of members.
    let clients = [0, 1, 2, 3, 4, 15, 16, 99, u64::MAX, u64::MAX - 1, u64::MAX - 2];
    for (who, role, _) in PEOPLE {
        let may = |kind: u64, client: u64| may_take(who, kind, client);
        let member = !["not_admitted", "auditor", "analyst"].contains(&who);
        let start = if member {
            lab.start(who, log)
        } else {
            // It has one from a time when it was admitted.
            let insert = format!("INSERT INTO cindrolf.starts (log, start, role) SELECT {log}, count(*), '{who}'");
            lab.ask("postgres", &format!("{insert} FROM cindrolf.starts RETURNING start")).parse().expect("a number")
        };
        let mut tried = Vec::new();
        for (kind, &client) in (0..=13).flat_map(|kind| clients.iter().map(move |client| (kind, client))) {
            let id = (start << 32) + tried.len() as u64;
            tried.push((may(kind, client), append(log, (0, chain), id, &[of(kind, client)])));
            // And hidden after a step that it may take.
            let hidden = [mark(*b"before\0\0"), of(1, 0), of(1, 1), of(1, 2), of(1, 3), of(kind, client)];
            let first: Vec<SqlStep> =
                hidden[..5].iter().filter(|step| may(step.kind, step.client.unwrap_or(0))).cloned().collect();
            if !first.is_empty() {
                let steps = [first, vec![of(kind, client)]].concat();
                tried.push((may(kind, client), append(log, (0, chain), id + (1 << 20), &steps)));
            }
        }
        let statements: Vec<String> = tried.iter().map(|(_, statement)| statement.clone()).collect();
        let before = lab.rows(log).len();
        for ((may, statement), found) in tried.iter().zip(lab.states(who, &statements)) {
            assert_eq!(found, if *may { "00000" } else { "42501" }, "{who} ({role}): {statement}");
        }
        let added = lab.rows(log).len() - before;
        let some = tried.iter().any(|(may, _)| *may);
        assert_eq!(added > 0, some, "{who}: {added} rows");
    }
}

#[test]
fn functions_are_for_those_who_need_them() {
    let Some((lab, log, chain)) = in_use("functions_are_for_those_who_need_them") else { return };
    let controllers = ["c0", "c1", "c2", "elects_itself", "election"];
    let fresh = bytes(&chain);
    let calls: Vec<(String, Vec<&str>)> = vec![
        (
            format!("SELECT cindrolf.create_log('run', 1, 4, 4096, {fresh})"),
            [&controllers[..], &["administrator"]].concat(),
        ),
        (format!("SELECT cindrolf.start({log})"), [&controllers[..], &["administrator"]].concat()),
        (format!("SELECT cindrolf.settle({log}, 1)"), [&controllers[..], &["administrator", "not_admitted"]].concat()),
        (format!("SELECT cindrolf.answer({log}, 1, ARRAY[0], ARRAY[NULL::bigint])"), vec!["auditor"]),
        ("SELECT cindrolf.admit('analyst', 5)".into(), vec!["administrator"]),
        ("SELECT cindrolf.dismiss('analyst', 5)".into(), vec!["administrator"]),
    ];
    for (call, who) in &calls {
        for one in everybody() {
            let found = lab.states(one, std::slice::from_ref(call));
            assert_eq!(found, [if who.contains(&one) { "00000" } else { "42501" }], "{one}: {call}");
        }
    }
    // Rows are copied by administrators, and only into a log that nobody uses.
    let none = "ARRAY[1::bigint << 32], ARRAY[0], ARRAY[1::smallint], ARRAY[0], ARRAY[''::bytea], ARRAY[NULL::bigint], \
                ARRAY[NULL], ARRAY[NULL]";
    let (second, _) = lab.create("copy");
    for (into, state) in [(log, "55000"), (second, "00000")] {
        let import = format!("SELECT cindrolf.import({into}, 0, {fresh}, {none})");
        for one in everybody().filter(|one| *one != "administrator") {
            refused(&lab, one, "42501", std::slice::from_ref(&import));
        }
        assert_eq!(lab.states("administrator", &[import]), [state]);
    }
}

#[test]
fn parts_of_functions_are_for_nobody() {
    let Some((lab, ..)) = in_use("parts_of_functions_are_for_nobody") else { return };
    let parts = [
        "SELECT cindrolf.chain_value('', 1, 1, 1::smallint, 1, '')",
        "SELECT cindrolf.chain_at(1, 1)",
        "SELECT cindrolf.counted(1)",
        "SELECT cindrolf.may_take('c0', 1::smallint, 0)",
        "SELECT cindrolf.is_start_of(1, 1, 'c0')",
        "SELECT cindrolf.is_administrator()",
        "SELECT cindrolf.is_step(1::smallint, 0, '')",
    ];
    for one in everybody() {
        refused(&lab, one, "42501", &parts.map(str::to_owned));
    }
}

#[test]
fn analysts_read_views() {
    let Some((lab, ..)) = in_use("analysts_read_views") else { return };
    audit(&lab, 1);
    let reads: Vec<String> =
        VIEWS.iter().chain(&["logs", "rows"]).map(|name| format!("SELECT * FROM cindrolf.{name}")).collect();
    for who in PEOPLE.map(|(who, _, _)| who) {
        assert_eq!(lab.states(who, &reads), vec!["00000"; reads.len()], "{who}");
    }
    refused(&lab, "stranger", "42501", &reads);
    let changes: Vec<String> = VIEWS.iter().map(|view| format!("DELETE FROM cindrolf.{view}")).collect();
    for who in everybody() {
        let states = lab.states(who, &changes);
        assert!(states.iter().all(|state| state == "42501" || state == "55000"), "{who}: {states:?}");
    }
}

#[test]
fn an_id_is_of_the_role_that_was_given_its_start() {
    let Some((lab, log, chain)) = in_use("an_id_is_of_the_role_that_was_given_its_start") else { return };
    let (of_c0, of_c1) = (1 << 20, lab.start("c1", log));
    let stolen = |count| append(log, (0, chain), (of_c0 << 32) + count, &[write(1, 1)]);
    // The last row is one of c0; and then one of c1.
    refused(&lab, "c1", "42501", &[stolen(1), stolen(2)]);
    assert_eq!(lab.append("c1", log, (0, chain), of_c1 << 32, &[write(1, 1)]), 6);
    refused(&lab, "c1", "42501", &[stolen(1), stolen(2)]);
    assert_eq!(lab.append("c0", log, (0, chain), (of_c0 << 32) + 1, &[write(0, 1)]), 7);
    // The start numbers of copied rows are nobody's.
    let (second, _) = lab.create("copy");
    let rows = "ARRAY[1::bigint << 32], ARRAY[0], ARRAY[1::smallint], ARRAY[0], ARRAY[''::bytea], ARRAY[NULL::bigint], \
                ARRAY[NULL], ARRAY[NULL]";
    lab.ask("administrator", &format!("SELECT cindrolf.import({second}, 0, {}, {rows})", bytes(&chain)));
    refused(&lab, "c0", "42501", &[append(second, (0, chain), (1 << 32) + 1, &[write(0, 1)])]);
}

#[test]
fn one_who_is_dismissed_steps_no_more() {
    let Some((lab, log, chain)) = in_use("one_who_is_dismissed_steps_no_more") else { return };
    lab.ask("administrator", "SELECT cindrolf.dismiss('c0', 0)");
    refused(&lab, "c0", "42501", &[append(log, (0, chain), ((1 << 20) << 32) + 1, &[write(0, 1)])]);
    // What it sent before is found all the same.
    assert_eq!(lab.append("c0", log, (0, chain), (1 << 20) << 32, &[write(0, 201)]), 0);
    lab.ask("administrator", "SELECT cindrolf.admit('c0', 0, true)");
    let again = [step(0, 0), write(0, 1)];
    assert_eq!(lab.append("c0", log, (0, chain), ((1 << 20) << 32) + 1, &again), 6);
    let told = "SELECT by, role, client, names FROM cindrolf.admissions ORDER BY time DESC LIMIT 2";
    assert_eq!(lab.ask("analyst", told), "administrator|c0|0|t\nadministrator|c0|0|");
    let wrong = ["admit('nobody', 1)", "dismiss('c0', 5)"].map(|call| format!("SELECT cindrolf.{call}"));
    refused(&lab, "administrator", "42704", &wrong);
    let wrong = ["admit('c0', 16)", "admit('c0', -4)", "admit('c0', -2, true)", "admit('c0', NULL)"];
    refused(&lab, "administrator", "22023", &wrong.map(|call| format!("SELECT cindrolf.{call}")));
}

// What was looked at has to be what is stored. An array may begin with any number.
#[test]
fn arrays_that_begin_elsewhere() {
    let Some((lab, log, chain)) = in_use("arrays_that_begin_elsewhere") else { return };
    let id = ((1u64 << 20) << 32) + 1;
    let send = |kinds: &str, clients: &str, inputs: &str, notes: &str| {
        let fresh = bytes(&chain);
        format!("SELECT cindrolf.append({log}, 0, {fresh}, {id}, {kinds}, {clients}, {inputs}, NULL, {notes})")
    };
    let (kinds, inputs) = ("'{11, 11}'::smallint[]", "ARRAY['\\x0101010101010101', '\\x0202020202020202']::bytea[]");
    let long = "n".repeat(limits::NOTE_LIMIT + 1);
    let wrong = [
        send("'[2:3]={11, 11}'::smallint[]", "'{NULL, NULL}'::bigint[]", inputs, "NULL"),
        send("'{{11}, {11}}'::smallint[]", "'{NULL, NULL}'::bigint[]", inputs, "NULL"),
        send("'{8, 8}'::smallint[]", "'[2:3]={0, 0}'::bigint[]", inputs, "NULL"),
        send(kinds, "'{NULL, NULL}'::bigint[]", &format!("array_prepend('\\x03'::bytea, ({inputs})[2:2])"), "NULL"),
    ];
    refused(&lab, "c0", "22023", &wrong);
    let hidden = send(kinds, "'[5:6]={0, 0}'::bigint[]", inputs, &format!("'[7:8]={{{long}, {long}}}'::text[]"));
    assert_eq!(lab.ask("c0", &hidden), "6");
    let stored = "SELECT count(*) FROM cindrolf.rows WHERE seq > 6 AND client IS NULL AND note IS NULL";
    assert_eq!(lab.ask("analyst", stored), "2");
}

#[test]
fn a_hostile_search_path_is_not_looked_at() {
    let Some((lab, log, chain)) = in_use("a_hostile_search_path_is_not_looked_at") else { return };
    lab.ask("postgres", "GRANT CREATE ON DATABASE postgres TO c1");
    let start = lab.start("c1", log);
    // Every table, function and operator that append uses, in a schema of the attacker's.
    let evil = "CREATE SCHEMA evil;
        CREATE TABLE evil.ran (what text);
        CREATE TABLE evil.members AS SELECT 'c1'::name AS role, n::smallint AS client, true AS names
            FROM generate_series(-3, 15) AS n;
        CREATE TEMP TABLE members AS SELECT * FROM evil.members;
        CREATE TEMP TABLE rows AS SELECT * FROM cindrolf.rows;
        CREATE FUNCTION evil.ran(what text) RETURNS void LANGUAGE sql AS 'INSERT INTO evil.ran VALUES (what)';
        CREATE FUNCTION evil.sha256(bytea) RETURNS bytea LANGUAGE plpgsql AS
            $$ BEGIN PERFORM evil.ran('sha256'); RETURN '\\x00112233445566778899aabbccddeeff'::bytea; END $$;
        CREATE FUNCTION evil.int8send(bigint) RETURNS bytea LANGUAGE plpgsql AS
            $$ BEGIN PERFORM evil.ran('int8send'); RETURN ''::bytea; END $$;
        CREATE FUNCTION evil.cardinality(anyarray) RETURNS integer LANGUAGE plpgsql AS
            $$ BEGIN PERFORM evil.ran('cardinality'); RETURN 1; END $$;
        CREATE FUNCTION evil.same(name, name) RETURNS boolean LANGUAGE plpgsql AS
            $$ BEGIN PERFORM evil.ran('='); RETURN true; END $$;
        CREATE FUNCTION evil.same(bigint, bigint) RETURNS boolean LANGUAGE plpgsql AS
            $$ BEGIN PERFORM evil.ran('='); RETURN true; END $$;
        CREATE FUNCTION evil.same(smallint, bigint) RETURNS boolean LANGUAGE plpgsql AS
            $$ BEGIN PERFORM evil.ran('='); RETURN true; END $$;
        CREATE OPERATOR evil.= (FUNCTION = evil.same, LEFTARG = name, RIGHTARG = name);
        CREATE OPERATOR evil.= (FUNCTION = evil.same, LEFTARG = bigint, RIGHTARG = bigint);
        CREATE OPERATOR evil.= (FUNCTION = evil.same, LEFTARG = smallint, RIGHTARG = bigint);
        SET search_path = pg_temp, evil, cindrolf, pg_catalog;";
    let own = append(log, (0, chain), start << 32, &[write(1, 5)]);
    let other = append(log, (0, chain), (start << 32) + 1, &[write(0, 5)]);
    // That the schema is indeed looked at by whoever does not beware.
    let proof = "SELECT 'before', count(*) FROM ran; SELECT sha256('\\x00') IS NULL; SELECT 'after', count(*) FROM ran";
    let said = lab.ask("c1", &format!("{evil}\n{own};\nSELECT cindrolf.start({log}) > 0;\n{proof};"));
    assert_eq!(said, "6\nt\nbefore|0\nf\nafter|1");
    let path = "SET search_path = pg_temp, evil, cindrolf, pg_catalog".to_owned();
    assert_eq!(lab.states("c1", &[path, other]), ["00000", "42501"]);
    let lead = [step(1, 0), step(3, 0), step(6, 0), step(7, 0), write(0, 201), write(0, 202)].to_vec();
    assert_eq!(lab.rows(log), lines(chain, &[((1 << 20) << 32, lead), (start << 32, vec![write(1, 5)])]));
}

/// Waits until one of them sleeps in the server.
fn until_asleep(lab: &Laboratory, who: &str) {
    let sleeps = format!("SELECT count(*) FROM pg_stat_activity WHERE usename = '{who}' AND wait_event = 'PgSleep'");
    let end = Instant::now() + Duration::from_secs(20);
    while lab.ask("postgres", &sleeps) != "1" {
        assert!(Instant::now() < end, "{who} does not sleep");
        std::thread::sleep(Duration::from_millis(5));
    }
}

// In an old snapshot the last row is not the last one. Then nothing is added, and nobody is told a wrong place.
#[test]
fn an_old_snapshot_adds_nothing() {
    let Some((lab, log, chain)) = in_use("an_old_snapshot_adds_nothing") else { return };
    let (start, other) = (lab.start("c1", log), lab.start("c0", log));
    for (count, level) in (0..).zip(["REPEATABLE READ", "SERIALIZABLE"]) {
        let own = append(log, (0, chain), (start << 32) + count, &[write(1, 5)]);
        let begin = format!("BEGIN ISOLATION LEVEL {level}; SELECT count(*) FROM cindrolf.rows; SELECT pg_sleep(2);");
        std::thread::scope(|scope| {
            let old = scope.spawn(|| lab.cluster.sql_as("c1", &format!("{begin} {own}; COMMIT;")));
            until_asleep(&lab, "c1");
            assert_eq!(lab.append("c0", log, (0, chain), (other << 32) + count, &[write(0, 1)]), 6 + count as i64);
            let fault = old.join().expect("a thread").expect_err("the snapshot is old");
            assert!(fault.contains("23505") || fault.contains("40001"), "{fault}");
        });
    }
    assert_eq!(lab.rows(log).len(), 8);
}

// One who tells lies wherever it can: its process, its notes, what it knows, whose steps they are.
#[test]
fn lies_change_no_total() {
    let Some((lab, log, chain)) = in_use("lies_change_no_total") else { return };
    let totals = "SELECT * FROM cindrolf.total; SELECT * FROM cindrolf.chain; SELECT * FROM cindrolf.ledgers; \
                  SELECT * FROM cindrolf.audits";
    audit(&lab, log);
    let before = lab.ask("analyst", totals);
    assert!(before.starts_with("run|2|0.000000000403\n") && before.ends_with("\nrun|6|6|0"), "{before}");
    let start = lab.start("c1", log);
    let mut lies = Vec::new();
    let kinds = (1..=9).map(|kind| if kind == 8 { write(1, 1 << 40) } else { step(kind, 1) });
    let scores = SqlStep { kind: 10, client: Some(1), input: vec![0; 80] };
    for (count, lie) in (0..).zip(kinds.chain([scores, write(1, u64::MAX), mark([255; 8]), mark(*b"\\x00'\"\0\0")])) {
        let sent = append(log, (0, chain), (start << 32) + count, &[lie]);
        lies.push(sent.replace("'a test', NULL", "'c0', ARRAY['entry 0 place 0']"));
    }
    assert_eq!(lab.states("c1", &lies), vec!["00000"; lies.len()]);
    // As the audit, and with answers of its own.
    let answers = format!("SELECT cindrolf.answer({log}, 7, ARRAY[4294967296 + 131072], ARRAY[NULL::bigint])");
    refused(&lab, "c1", "42501", &[answers]);
    // Rows that are not audited are in no view, and it is said how many there are.
    let meanwhile = before.replace("run|6|6|0", &format!("run|{}|6|{}", 6 + lies.len(), lies.len()));
    assert_eq!(lab.ask("analyst", totals), meanwhile);
    let replayed = audit(&lab, log);
    let after = before.replace("run|6|6|0", &format!("run|{0}|{0}|0", 6 + lies.len()));
    assert_eq!(lab.ask("analyst", totals), after);
    assert_eq!(replayed.log.run_total().expect("a total").to_string(), "0.000000000403");
    // All of it is known to be of c1, and a mark whose name is no text does not break the view.
    let told = "SELECT DISTINCT role FROM cindrolf.rows WHERE process = 'c0' AND seq > 6";
    assert_eq!(lab.ask("analyst", told), "c1");
    assert_eq!(lab.ask("analyst", "SELECT name FROM cindrolf.marks"), format!("{}\n\\x00'\"", "\\377".repeat(8)));
}
