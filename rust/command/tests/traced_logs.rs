//! Pages of logs: each row as the library takes it at its place, with its time, and parts of a long log.

mod support;

use cindrolf::{Kind, Step, StepWord};
use std::fs;
use std::time::Duration;
use store::database::{Database, Mode};
use store::{Asked, Change, Store};
use support::Folder;

/// Two reads, the second as scores and with a note, a mark, a right less, and two steps that were refused in their places.
fn log() -> Folder {
    let folder = Folder::with_log(2);
    folder.steps(&["B 0", "F 0", "C 0", "P 0", "W 0 201"]);
    // A score of 40 quarters is 0.1 expected errors, and there are two.
    let noted = Asked { change: Change::WriteScores(0, vec![40, 40]), note: Some("read <7>".into()) };
    let mut store = Store::open(folder.path("run.log")).unwrap();
    store.set_process_name("base caller").unwrap();
    assert!(store.take_all(&[noted]).unwrap()[0].is_ok());
    drop(store);
    folder.quiet(&["mark", "run.log", "wash"]);
    folder.quiet(&["revoke", "run.log", "0", "A"]);
    assert_eq!(
        folder.steps(&["W 1 7", "N 1", "A 0", "B 1", "F 1", "L 1"]),
        "1 ref 7\n2 ok\n3 ref 24\n4 ok\n5 ok\n6 ok\n"
    );
    folder
}

/// What a page has to say of each row, worked out by hand from the reference.
const ROWS: [(&str, &str, &str); 14] = [
    ("B 0", "ok", "become of client 0: client 0 fetches the list next"),
    ("F 0", "ok", "fetch of client 0: client 0 creates a ledger next"),
    ("C 0", "ok", "create of client 0: ledger 1 is created; client 0 appends ledger 1 next"),
    ("P 0", "ok", "append of client 0: ledger 1 is listed; client 0 writes to ledger 1"),
    ("W 0 201", "entry 0 place 0", "write of client 0: 201 is stored in ledger 1"),
    ("W 0 of 2 scores", "entry 1 place 1", "write of client 0: 200000000000 is stored in ledger 1"),
    ("mark wash", "ok", "the mark is set at 2 entries"),
    ("rights of 0: NBFLKCPWO", "ok", "client 0 has no right to A from now on"),
    ("W 1 7", "refused: ref 7", "write of client 1: the client does not lead"),
    ("N 1", "ok", "name of client 1: client 1 is the named leader"),
    ("A 0", "refused: ref 24", "abdicate of client 0: the client lacks the right to this step"),
    ("B 1", "ok", "become of client 1: client 1 fetches the list next"),
    ("F 1", "ok", "fetch of client 1: client 1 fences ledger 1 next"),
    (
        "L 1",
        "ok",
        "close last of client 1: ledger 1 is fenced, recovering; client 0 writes to fenced ledger 1; client 1 closes ledger 1 next",
    ),
];

/// The times of the rows, as SQLite gives them.
fn times(folder: &Folder) -> Vec<String> {
    let database = Database::open(&folder.path("run.log"), Mode::Existing, Duration::from_secs(10)).unwrap();
    let time = "strftime('%Y-%m-%d %H:%M:%S', time / 1000000, 'unixepoch') || printf('.%06d UTC', time % 1000000)";
    (1..=ROWS.len())
        .map(|row| database.text(&format!("SELECT {time} FROM journal WHERE seq = {row}")).unwrap().unwrap())
        .collect()
}

/// The items of the list that a page has to have for these rows.
fn items(folder: &Folder, numbers: impl Iterator<Item = usize>) -> String {
    let times = times(folder);
    let item = |number: usize| {
        let ((line, reply, text), time) = (ROWS[number - 1], &times[number - 1]);
        let class = if reply.starts_with("refused") { " class=refused" } else { "" };
        let by = if number == 6 { "base caller, \u{201c}read &lt;7&gt;\u{201d}" } else { support::PROCESS };
        format!(
            "<li{class} value={number}><a href=#{number}><code>{line}</code> <b>{reply}</b></a> <span>{text}</span> \
             <small><time>{time}</time>, {by}</small>\n"
        )
    };
    numbers.map(item).collect()
}

/// The lines of a page's list.
fn list(page: &str) -> String {
    page.lines().filter(|line| line.starts_with("<li")).map(|line| format!("{line}\n")).collect()
}

/// What is at the end of a page.
fn result<'a>(page: &'a str, id: &str) -> &'a str {
    let (_, rest) = page.split_once(&format!("id=\"{id}\"")).unwrap();
    rest.split_once('>').unwrap().1.split_once('<').unwrap().0
}

#[test]
fn every_row_with_its_time() {
    let folder = log();
    let page = folder.output(&["trace", "run.log"]);
    assert_eq!(list(&page), items(&folder, 1..=14));
    assert!(page.contains("<h2>All 14 rows</h2>"));
    assert_eq!(result(&page, "chain-line"), "chain 0:201 0:200000000000");
    assert_eq!(result(&page, "total"), "total 0.200000000201");
    folder.quiet(&["trace", "run.log", "-o", "run.html"]);
    assert_eq!(fs::read_to_string(folder.path("run.html")).unwrap(), page);
    assert_eq!(folder.names(), ["run.html", "run.log"]);
}

#[test]
fn a_picture_with_its_times() {
    let folder = log();
    let (picture, times) = (folder.output(&["trace", "--svg", "run.log"]), times(&folder));
    let (_, described) = picture.split_once("<desc").unwrap();
    for (number, ((line, reply, text), time)) in (1..).zip(ROWS.into_iter().zip(times)) {
        let reply = reply.replace("refused: ", "refused, ");
        let by =
            if number == 6 { "base caller, with the note \u{201c}read &lt;7&gt;\u{201d}" } else { support::PROCESS };
        let told = format!("\n{number} {line}, {reply}: {text}. Stored at {time} by {by}.\n");
        assert!(described.contains(&told), "{told}{described}");
        let cross = if reply.starts_with("refused") { "\u{2715} " } else { "" };
        let (day, second) = time.split_at(10);
        let day = if number == 1 { format!(" {day}") } else { String::new() };
        let drawn = format!(">{cross}{number}{day}{}</text>", &second[..9]);
        assert!(picture.contains(&drawn), "{drawn}");
    }
    assert!(picture.contains(">All 14 rows; times are in UTC</text>"));
}

#[test]
fn some_rows() {
    let folder = log();
    for (options, numbers, part, chain) in [
        (&["--from", "5"][..], (5..=14).collect(), "Rows 5 to 14 of 14", "chain 0:201 0:200000000000"),
        (&["--to", "5"], (1..=5).collect(), "Rows 1 to 5 of 14", "chain 0:201"),
        (&["--from", "6", "--to", "9"], vec![6, 7, 8, 9], "Rows 6 to 9 of 14", "chain 0:201 0:200000000000"),
        (&["--to", "99"], (1..=14).collect(), "All 14 rows", "chain 0:201 0:200000000000"),
        (&["--client", "1"], vec![9, 10, 12, 13, 14], "All 14 rows, those of client 1", "chain 0:201 0:200000000000"),
        (
            &["--client", "0", "--to", "5", "--from", "2"],
            vec![2, 3, 4, 5],
            "Rows 2 to 5 of 14, those of client 0",
            "chain 0:201",
        ),
    ] {
        let page = folder.output(&[&["trace", "run.log"], options].concat());
        assert_eq!(list(&page), items(&folder, numbers.iter().copied()), "{options:?}");
        assert!(page.contains(&format!("<h2>{part}</h2>")), "{part}");
        assert!(page.contains(&format!("<span>before row {}: 2 clients; ", numbers[0])), "{options:?}");
        assert_eq!(result(&page, "chain-line"), chain, "{options:?}");
    }
    // With what is there already: ledger 1 is created and listed, and has an entry.
    let page = folder.output(&["trace", "run.log", "--from", "6"]);
    assert!(page.contains("\"begin\":[[0,1,0],[1,1],[3,1,0,\"201\"]],\"rows\":[6,"), "{page}");
}

#[test]
fn rows_that_are_not_there() {
    let folder = log();
    fs::write(folder.path("a.session"), "1\nB 0\n").unwrap();
    for options in [&["--from", "15"][..], &["--client", "2"], &["--client", "1", "--to", "8"]] {
        let said = "cindrolf: run.log: none of its 14 rows is asked for: change --client, --from or --to\n";
        assert_eq!(folder.failure(1, &[&["trace", "run.log"], options].concat()), said);
        let said = "cindrolf: a.session is a session: --client, --from and --to choose rows of a log\n";
        assert_eq!(folder.failure(2, &[&["trace", "a.session"], options].concat()), said);
    }
}

#[test]
fn a_log_without_rows() {
    let folder = Folder::with_log(16);
    let page = folder.output(&["trace", "run.log"]);
    assert!(
        page.contains("<h2>No rows</h2>") && page.contains("<span>16 clients; client 0 is the named leader</span>")
    );
    assert_eq!((list(&page).as_str(), result(&page, "chain-line")), ("", "chain"));
}

// As many rows as a page shows, and one more.
#[test]
fn a_log_that_no_page_holds() {
    let folder = Folder::with_log(2);
    let named = |client| StepWord::new(client, Step::new(Kind::Name, 0)).unwrap();
    let plan: Vec<_> = [named(1), named(0)].into_iter().cycle().take(4096).collect();
    assert_eq!(Store::open(folder.path("run.log")).unwrap().run_plan(&plan, 4096), Ok(4096));
    assert_eq!(list(&folder.output(&["trace", "run.log"])).lines().count(), 4096);
    folder.steps(&["N 1"]);
    let why = "these are 4097 rows, and a page shows 4096: choose some with --from ROW and --to ROW, or those of one \
               client with --client CLIENT";
    for svg in [&[][..], &["--svg"]] {
        let said = folder.failure(1, &[&["trace", "run.log"], svg].concat());
        assert_eq!(said, format!("cindrolf: run.log: {why}\n"));
    }
    let last = folder.output(&["trace", "run.log", "--from", "4097"]);
    assert!(list(&last).starts_with("<li value=4097><a href=#4097><code>N 1</code> "));
    assert_eq!(list(&folder.output(&["trace", "run.log", "--client", "1"])).lines().count(), 2049);
}

// The library's answer is shown, and not what a wrong process has stored.
#[test]
fn a_wrong_answer_is_not_shown() {
    let folder = log();
    let database = Database::open(&folder.path("run.log"), Mode::Existing, Duration::from_secs(10)).unwrap();
    let trigger =
        database.text("SELECT sql FROM sqlite_schema WHERE name = 'journal_is_not_changed'").unwrap().unwrap();
    for statement in ["DROP TRIGGER journal_is_not_changed", "UPDATE journal SET answer = 268 WHERE seq = 2", &trigger]
    {
        database.execute(statement).unwrap();
    }
    drop(database);
    let traced = folder.run(&["trace", "run.log"]);
    assert_eq!(traced.status, Some(0));
    assert!(traced.errors.contains("row 2 of lab1 cindrolf[812] has the answer 'ref 12', and the log gives 'ok'"));
    assert_eq!(list(&traced.output), items(&folder, 1..=14));
}
