//! Compares the views of a server with those of a file with the same rows. The tests of the store compare those of the
//! file with what the library reads.

use cindrolf::{Capacity, Right, Step, StepWord, VALUE_LIMIT};
use cindrolf_server_tests::laboratory::Laboratory;
use cindrolf_server_tests::sql_rows::{array, bytes, number};
use model::random::Random;
use std::path::Path;
use std::time::{Duration, Instant};
use store::database::{Database, Mode, Value};
use store::{Asked, Change, Store};
use store_tests::plans::random_plan;
use store_tests::scratch::Scratch;

const VIEWS: [&str; 9] = ["steps", "moves", "entries", "chain", "ledgers", "clients", "marks", "rights", "total"];

/// A value of a file as psql prints it.
fn text(value: Value<'_>) -> String {
    match value {
        Value::Null => String::new(),
        Value::Integer(number) => number.to_string(),
        Value::Text(text) => text.to_owned(),
        Value::Blob(bytes) => bytes.iter().map(|byte| format!("{byte:02x}")).collect(),
    }
}

/// What SQLite answers of a file: a line for each row, with `|` between columns.
fn from_file(file: &Path, select: &str, columns: usize) -> Vec<String> {
    let database = Database::open(file, Mode::Existing, Duration::ZERO).expect("a file");
    let mut rows = Vec::new();
    let each = database.prepare(select).expect("a statement").each(&[], |row| {
        let line: Vec<String> = (0..columns as i32).map(|column| text(row.value(column))).collect();
        rows.push(line.join("|"));
        Ok::<(), store::Fault>(())
    });
    each.expect("rows");
    rows
}

fn columns_of(file: &Path, view: &str) -> Vec<String> {
    from_file(file, &format!("SELECT name FROM pragma_table_info('{view}')"), 1)
}

/// A row of a file's journal: its columns as text, and the bytes of its input.
struct Copied {
    columns: Vec<String>,
    input: Vec<u8>,
}

/// The rows of a file after the first `known`.
fn rows_after(file: &Path, known: usize) -> Vec<Copied> {
    let select = format!(
        "SELECT request, part, kind, client, time, process, note, answer, value, chain, input FROM journal \
         WHERE seq > {known} ORDER BY seq"
    );
    let database = Database::open(file, Mode::Existing, Duration::ZERO).expect("a file");
    let mut rows = Vec::new();
    let each = database.prepare(&select).expect("a statement").each(&[], |row| {
        let columns: Vec<String> = (0..10).map(|column| text(row.value(column))).collect();
        let mut input = match row.value(10) {
            Value::Integer(number) => number.to_be_bytes().to_vec(),
            Value::Blob(bytes) => bytes.to_vec(),
            _ => Vec::new(),
        };
        // A file keeps the name of a mark without the zeros at its end.
        if ["11", "12"].contains(&columns[2].as_str()) {
            input.resize(8, 0);
        }
        rows.push(Copied { columns, input });
        Ok::<(), store::Fault>(())
    });
    each.expect("rows");
    rows
}

/// A log on a server that has the rows of a file.
struct Twin<'a> {
    lab: &'a Laboratory,
    file: &'a Path,
    name: &'a str,
    log: u64,
    /// How many rows were copied, and the chain value of the last.
    rows: usize,
    chain: String,
}

impl<'a> Twin<'a> {
    fn new(lab: &'a Laboratory, file: &'a Path, name: &'a str) -> Twin<'a> {
        let fresh = from_file(file, "SELECT rules, client_count, entry_words, chain FROM log", 4).remove(0);
        let (numbers, chain) = fresh.rsplit_once('|').expect("four columns");
        let create = format!("SELECT cindrolf.create_log('{name}', {}, '\\x{chain}')", numbers.replace('|', ", "));
        assert_eq!(lab.ask("administrator", &create), "t");
        let log = lab.ask("analyst", &format!("SELECT log FROM cindrolf.logs WHERE name = '{name}'"));
        Twin { lab, file, name, log: log.parse().expect("a number"), rows: 0, chain: chain.into() }
    }

    /// Copies the rows that it lacks, and then the answers to them. Until then the views are as they were.
    fn follow(&mut self) {
        let rows = rows_after(self.file, self.rows);
        let before = self.shown();
        for some in rows.chunks(700) {
            self.import(some);
        }
        assert_eq!(self.shown(), before, "rows that are not audited are in no view");
        let (all, missing) = (self.rows, rows.len());
        let audits = format!("SELECT rows, audited, not_audited FROM cindrolf.audits WHERE log = '{}'", self.name);
        assert_eq!(self.lab.ask("analyst", &audits), format!("{all}|{}|{missing}", all - missing));
        let of = |column: usize| array("bigint", rows.iter().map(|row| or_null(&row.columns[column])));
        let first = all - missing + 1;
        self.lab.ask("auditor", &format!("SELECT cindrolf.answer({}, {first}, {}, {})", self.log, of(7), of(8)));
        assert_eq!(self.lab.ask("analyst", &audits), format!("{all}|{all}|0"));
    }

    fn import(&mut self, rows: &[Copied]) {
        let numbers = |of, column: usize| array(of, rows.iter().map(|row| or_null(&row.columns[column])));
        let texts = |column: usize| array("text", rows.iter().map(|row| quoted(&row.columns[column])));
        let inputs = array("bytea", rows.iter().map(|row| bytes(&row.input)));
        let arrays = [
            numbers("bigint", 0),
            numbers("bigint", 1),
            numbers("smallint", 2),
            numbers("bigint", 3),
            inputs,
            numbers("bigint", 4),
            texts(5),
            texts(6),
        ];
        let (log, known, chain) = (self.log, self.rows, &self.chain);
        let import = format!("SELECT cindrolf.import({log}, {known}, '\\x{chain}', {})", arrays.join(", "));
        self.rows += rows.len();
        assert_eq!(self.lab.ask("administrator", &import), self.rows.to_string());
        self.chain = rows.last().expect("a row").columns[9].clone();
    }

    fn shown(&self) -> Vec<Vec<String>> {
        VIEWS.iter().map(|view| self.view(view)).collect()
    }

    fn view(&self, view: &str) -> Vec<String> {
        let columns = columns_of(self.file, view).join(", ");
        let select = format!("SELECT {columns} FROM cindrolf.{view} WHERE log = '{}'", self.name);
        self.lab.ask("analyst", &select).lines().map(str::to_owned).collect()
    }

    fn compare(&self) {
        for (view, shown) in VIEWS.iter().zip(self.shown()) {
            let wanted = from_file(self.file, &format!("SELECT * FROM {view}"), columns_of(self.file, view).len());
            assert_eq!(shown, wanted, "{view} of {}", self.name);
        }
    }
}

fn or_null(text: &str) -> String {
    number(if text.is_empty() { None } else { Some(text.parse::<i64>().expect("a number") as u64) })
}

fn quoted(text: &str) -> String {
    if text.is_empty() { "NULL".into() } else { format!("'{}'", text.replace('\'', "''")) }
}

#[test]
fn they_have_the_columns_of_the_file() {
    let Some(lab) = Laboratory::of("they_have_the_columns_of_the_file") else { return };
    let room = Scratch::new();
    let file = room.file("run.db");
    Store::create(&file, 2, Capacity::Large).expect("a new file");
    for view in VIEWS {
        let select = format!(
            "SELECT column_name FROM information_schema.columns \
             WHERE table_schema = 'cindrolf' AND table_name = '{view}' ORDER BY ordinal_position"
        );
        let found = lab.ask("postgres", &select);
        let wanted = ["log".to_owned()].into_iter().chain(columns_of(&file, view)).collect::<Vec<_>>().join("\n");
        assert_eq!(found, wanted, "{view}");
    }
    let views = from_file(&file, "SELECT count(*) FROM sqlite_schema WHERE type = 'view'", 1);
    assert_eq!(views, [VIEWS.len().to_string()]);
}

/// Steps of every kind, in several requests.
fn round(store: &mut Store, random: &mut Random, clients: u64, round: usize) {
    let plan = random_plan(random, clients, 120 * clients as usize);
    store.run_plan(&plan, u64::MAX).expect("a plan");
    let client = random.below(clients);
    let scores: Vec<u16> = (0..random.between(1, 50)).map(|_| random.below(373) as u16).collect();
    let mut asked: Vec<Asked> = vec![
        Change::SetMark(format!("m{round}").parse().expect("a name")).into(),
        Change::SetMark(format!("é{round}").parse().expect("a name")).into(),
        Change::WriteScores(client, scores).into(),
        // Refused, in a request that is not.
        Change::WriteScores(client, Vec::new()).into(),
        Change::Step(client, Step::write(u64::MAX)).into(),
        Change::SetRights(99, 7).into(),
    ];
    for (nth, asked) in asked.iter_mut().enumerate() {
        asked.note = Some(format!("note {nth} of 'é'"));
    }
    let _ = store.take_all(&asked).expect("a request");
    if round % 3 == 2 {
        store.drop_mark(format!("m{}", round - 1).parse().expect("a name")).expect("it is kept");
        store.set_mark(format!("m{}", round - 1).parse().expect("a name")).expect("it was dropped");
        store.drop_mark(format!("é{round}").parse().expect("a name")).expect("it is kept");
        store.revoke(random.below(clients), Right::CloseOwn).expect("a client");
    }
}

#[test]
fn random_logs() {
    let Some(lab) = Laboratory::of("random_logs") else { return };
    let mut random = Random::new(7);
    let room = Scratch::in_memory();
    let sizes = [1, 2, 3, 16];
    let files = sizes.map(|clients| room.file(&format!("of-{clients}.db")));
    let names = sizes.map(|clients| format!("run of '{clients}'").replace('\'', "-"));
    let mut twins = Vec::new();
    for ((clients, file), name) in sizes.into_iter().zip(&files).zip(&names) {
        let mut store = Store::create(file, clients, Capacity::Small).expect("a new file");
        let mut twin = Twin::new(&lab, file, name);
        twin.compare();
        for nth in 0..4 {
            round(&mut store, &mut random, clients, nth);
            twin.follow();
            twin.compare();
        }
        let view = store.latest().expect("the log").view().expect("a view");
        assert!(view.entry_count() > 10, "{clients} clients: {} entries", view.entry_count());
        twins.push(twin);
    }
    // Each still shows what it did, with the others beside it.
    twins.iter().for_each(Twin::compare);
}

// A full log: as many entries and ledgers as there can be, of the greatest values.
#[test]
fn a_full_log() {
    let Some(lab) = Laboratory::of("a_full_log") else { return };
    let room = Scratch::new();
    let file = room.file("run.db");
    let mut store = Store::create(&file, 16, Capacity::Large).expect("a new file");
    let mut plan = Vec::new();
    for turn in 0..255 {
        let client = turn % 16;
        let lead = [Step::NAME, Step::BECOME, Step::FETCH, Step::CLOSE_LAST, Step::FINISH, Step::CREATE, Step::APPEND];
        let writes = [Step::write(VALUE_LIMIT); 17];
        plan.extend(lead.into_iter().chain(writes).map(|step| StepWord::new(client, step).expect("a step")));
        plan.push(StepWord::new((client + 1) % 16, Step::NAME).expect("a step"));
        plan.push(StepWord::new(client, Step::ABDICATE).expect("a step"));
    }
    store.run_plan(&plan, u64::MAX).expect("a plan");
    store.set_mark("full".parse().expect("a name")).expect("a mark");
    assert_eq!(store.latest().expect("the log").view().expect("a view").entry_count(), 4_096);
    let mut twin = Twin::new(&lab, &file, "run");
    twin.follow();
    twin.compare();
    for view in VIEWS {
        let began = Instant::now();
        assert!(!twin.view(view).is_empty(), "{view}");
        let taken = began.elapsed();
        println!("{view} {taken:?}");
        assert!(taken < Duration::from_secs(2), "{view} took {taken:?}");
    }
}
