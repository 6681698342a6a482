//! Rows in a PostgreSQL database: read, and appended by a function of the server.

use crate::address::ServerAddress;
use crate::check::WrongAnswer;
use crate::engine::{Appended, Engine, Followed, Request};
use crate::replica::{Follower, Replica, Row, Stamp};
use crate::request::{Asked, Chain, Change, DROP_MARK, Known, RULES, SET_MARK, SET_RIGHTS, WRITE_SCORES};
use crate::{Error, file};
use cindrolf::{Capacity, Kind, MarkName, Step};
use postgres::{Connection, Fault, Rows, bytes, bytes_of, text};
use std::hash::{BuildHasher, Hasher, RandomState};
use std::num::NonZeroU32;
use std::thread::sleep;
use std::time::{Duration, Instant};

/// How long a connection may be silent before it is given up, and another one tried.
const SILENT: Duration = Duration::from_secs(2);

/// How long to wait before the next try.
const PAUSE: Duration = Duration::from_millis(10);

/// How many rows are read at a time.
const PAGE: usize = 10_000;

/// The version of the schema.
const SCHEMA: i64 = super::schema::VERSION;

/// The oldest server: it finds by itself that a client is gone.
const OLDEST: i64 = 140_000;

/// Whatever the environment, the role or the database say.
const SETTINGS: &str = "\
    SET synchronous_commit = on; SET default_transaction_isolation = 'read committed'; SET lock_timeout = '5s'; \
    SET idle_in_transaction_session_timeout = '5s'; SET client_connection_check_interval = '1s'; \
    SET bytea_output = 'hex'; SET plan_cache_mode = force_generic_plan; \
    SET enable_seqscan = off; SET enable_bitmapscan = off; \
    SELECT current_setting('server_version_num')::bigint, current_setting('fsync'), current_setting('full_page_writes')";

const STATEMENTS: &str = "\
    PREPARE since (integer, bigint) AS SELECT seq, request, part, kind, client, input, chain FROM cindrolf.rows \
    WHERE log = $1 AND seq >= $2 ORDER BY seq LIMIT 10000; \
    PREPARE append (integer, bigint, bytea, bigint, smallint[], bigint[], bytea[], text, text[]) AS \
    SELECT cindrolf.append($1, $2, $3, $4, $5, $6, $7, $8, $9); \
    PREPARE append_write (integer, bigint, bytea, bigint, bigint, bigint, text, text) AS \
    SELECT cindrolf.append_write($1, $2, $3, $4, $5, $6, $7, $8); SELECT cindrolf.version()";

/// A connection to the server of a log.
pub(crate) struct ServerEngine {
    address: ServerAddress,
    connection: Option<Connection>,
    /// The log's number, once it is known.
    log: i64,
    pub patience: Duration,
    pub process: String,
    /// Whether the present call has stored anything.
    pub stored: bool,
    /// Whether others have added rows meanwhile, when it last appended.
    raced: bool,
}

impl ServerEngine {
    pub fn new(address: ServerAddress, patience: Duration) -> Self {
        let process = file::process_name();
        ServerEngine { address, connection: None, log: 0, patience, process, stored: false, raced: false }
    }

    /// Makes a fresh log, and says whether there was none of this name. It finds its own where the answer was lost.
    pub fn create(&mut self, client_count: u64, capacity: Capacity) -> Result<bool, Error> {
        let create = format!("SELECT {}", create_call(&self.address.log, client_count, capacity));
        Ok(self.make(&create, SILENT)?.text(0, 0) == Some("t"))
    }

    /// Runs a command that may be run twice, until it is answered or the patience is over.
    pub fn read(&mut self, command: &str) -> Result<Rows, Error> {
        let deadline = Instant::now() + self.patience;
        loop {
            match self.run(command) {
                Ok(rows) => return Ok(rows),
                Err(fault) if is_passing(&fault) && Instant::now() < deadline => sleep(PAUSE),
                Err(fault) => return Err(of(fault)),
            }
        }
    }

    /// Runs a command that makes a log, and that finds its own where it comes again: so it is sent again where nothing is
    /// heard of it. Where that goes on for as long as the patience, it is not known whether there is a log now.
    pub fn make(&mut self, command: &str, time: Duration) -> Result<Rows, Error> {
        let (mut lost, mut deadline) = (false, None);
        loop {
            let fault = match self.run_for(command, time) {
                Ok(rows) => return Ok(rows),
                Err(fault) => fault,
            };
            lost |= matches!(fault, Fault::Lost(_));
            let deadline = *deadline.get_or_insert_with(|| Instant::now() + self.patience);
            if !is_passing(&fault) || Instant::now() >= deadline {
                let silent = lost && !matches!(fault, Fault::Refused { .. });
                return Err(if silent { Error::Unknown { request: 0, why: fault.to_string() } } else { of(fault) });
            }
            sleep(PAUSE);
        }
    }

    fn run(&mut self, command: &str) -> Result<Rows, Fault> {
        self.run_for(command, SILENT)
    }

    /// Runs a command once. A connection that is lost, or silent for so long, is given up.
    fn run_for(&mut self, command: &str, time: Duration) -> Result<Rows, Fault> {
        let connection = match &mut self.connection {
            Some(connection) => connection,
            none => none.insert(connect(&self.address.connection)?),
        };
        let result = connection.run(command, Instant::now() + time);
        if matches!(result, Err(Fault::Lost(_) | Fault::Unreachable(_))) {
            self.connection = None;
        }
        result
    }

    /// Gives each row from this one on, in their order, until it is told to stop, and says whether it was.
    fn since(&mut self, from: i64, mut each: impl FnMut(&Rows, usize) -> Result<bool, Error>) -> Result<bool, Error> {
        let mut next = from;
        loop {
            let rows = self.read(&format!("EXECUTE since ({}, {next})", self.log))?;
            for row in 0..rows.count() {
                if !each(&rows, row)? {
                    return Ok(true);
                }
            }
            if rows.count() < PAGE {
                return Ok(false);
            }
            next = rows.number(PAGE - 1, 0).unwrap_or(next) + 1;
        }
    }

    /// Has a copy follow the rows that it does not have, up to the request with this id.
    pub fn feed(&mut self, mut follower: Follower<'_>, until: Option<u64>) -> Result<Followed, Error> {
        let mut awaited = Some(follower.known()).filter(|known| known.rows > 0);
        let from = follower.known().rows;
        let stopped = self.since(from, |rows, place| {
            let row = load(rows, place).ok_or_else(|| file::no_row(follower.known().rows + 1))?;
            if let Some(known) = awaited.take() {
                return if row.known == known { Ok(true) } else { Err(Error::OtherHistory) };
            }
            if row.known.rows > 0 && until == Some(row.id) {
                return Ok(false);
            }
            follower.row(row).map(|()| true)
        })?;
        if awaited.is_some() {
            return Err(Error::OtherHistory);
        }
        follower.finish()?;
        Ok(Followed { wrong: Vec::new(), stopped })
    }

    /// Rows from this one on with all that is stored of them, up to a page.
    pub fn page(&mut self, from: i64) -> Result<Rows, Error> {
        let time = "(extract(epoch FROM time) * 1000000)::bigint";
        let select = "SELECT seq, request, part, kind, client, input, chain";
        let rows = format!("cindrolf.rows WHERE log = {} AND seq >= {from} ORDER BY seq LIMIT {PAGE}", self.log);
        self.read(&format!("{select}, {time}, process, note FROM {rows}"))
    }

    /// The client and the process of each step among the last rows, from the last on.
    pub fn last_steps(&mut self, count: usize) -> Result<Rows, Error> {
        let last = format!("SELECT * FROM cindrolf.rows WHERE log = {} ORDER BY seq DESC LIMIT {count}", self.log);
        self.read(&format!("SELECT client, process FROM ({last}) AS last WHERE kind <= 10 ORDER BY seq DESC"))
    }

    /// The chain value of a row, if there is one.
    pub fn chain_of(&mut self, row: i64) -> Result<Option<Chain>, Error> {
        let select = format!("SELECT chain FROM cindrolf.rows WHERE log = {} AND seq = {row}", self.log);
        let rows = self.read(&select)?;
        Ok(rows.text(0, 0).and_then(bytes_of).and_then(|chain| chain.try_into().ok()))
    }

    /// How many rows there are.
    pub fn count(&mut self) -> Result<i64, Error> {
        let select = format!("SELECT coalesce(max(seq), 0) FROM cindrolf.rows WHERE log = {}", self.log);
        Ok(self.read(&select)?.number(0, 0).unwrap_or(0))
    }

    /// The place of a request's first row, if it is there.
    pub fn settle(&mut self, request: u64) -> Result<Option<i64>, Error> {
        let rows = self.read(&format!("SELECT cindrolf.settle({}, {})", self.log, request as i64))?;
        Ok(rows.number(0, 0).filter(|&place| place >= 0))
    }

    /// The log's number.
    pub fn log(&self) -> i64 {
        self.log
    }
}

impl Engine for ServerEngine {
    fn beginning(&mut self) -> Result<Replica, Error> {
        let select = "SELECT log, rules, client_count, entry_words, chain FROM cindrolf.logs WHERE name = ";
        let rows = self.read(&format!("{select}{}", text(&self.address.log)))?;
        if rows.count() == 0 {
            return Err(Error::Missing);
        }
        let number = |column| rows.number(0, column).unwrap_or(0);
        if number(1) as u64 != RULES {
            let why = format!("it goes by version {} of the rules, and this library by {RULES}", number(1));
            return Err(Error::NoLog(why));
        }
        let capacity = usize::try_from(number(3)).ok().and_then(Capacity::from_words);
        let fresh = capacity.and_then(|capacity| Replica::fresh(number(2) as u64, capacity).ok());
        let fresh = fresh.filter(|fresh| rows.text(0, 4).and_then(bytes_of).as_deref() == Some(&fresh.known.chain));
        self.log = number(0);
        fresh.ok_or_else(|| Error::Damaged("its fresh log is none".into()))
    }

    fn follow(&mut self, replica: &mut Replica, until: Option<u64>) -> Result<Followed, Error> {
        self.feed(Follower::new(replica), until)
    }

    /// A step is sent without a look: where others were faster, its place says so.
    fn catch_up(&mut self, _: &mut Replica) -> Result<Vec<WrongAnswer>, Error> {
        Ok(Vec::new())
    }

    /// Nobody holds the server.
    fn hold(&mut self, _: &mut Replica) -> Result<Followed, Error> {
        Ok(Followed::default())
    }

    fn release(&mut self) -> Result<(), Error> {
        Ok(())
    }

    fn start(&mut self, _: &Replica) -> Result<Option<NonZeroU32>, Error> {
        let rows = self.read(&format!("SELECT cindrolf.start({})", self.log))?;
        Ok(rows.number(0, 0).and_then(|number| u32::try_from(number).ok()).and_then(NonZeroU32::new))
    }

    fn append(&mut self, known: Known, request: &Request<'_>) -> Result<Appended, Error> {
        // What is faster for one who writes alone is slower for one of many.
        let single = write_command(self.log, known, request, &self.process).filter(|_| !self.raced);
        let command = single.unwrap_or_else(|| append_command(self.log, known, request, &self.process));
        match self.run(&command) {
            Ok(rows) => match rows.number(0, 0) {
                Some(place @ 0..) => {
                    (self.stored, self.raced) = (true, place != known.rows);
                    Ok(Appended::Placed(place))
                }
                _ => Ok(Appended::OtherHistory),
            },
            Err(fault) if is_passing(&fault) => {
                let sent = matches!(fault, Fault::Lost(_));
                Ok(Appended::Silence { sent, why: fault.to_string() })
            }
            Err(fault) => Err(of(fault)),
        }
    }
}

/// Connects, and sees that an answer of this server means what it has to.
fn connect(address: &str) -> Result<Connection, Fault> {
    let mut connection = Connection::open(address)?;
    let deadline = || Instant::now() + SILENT;
    let settings = connection.run(SETTINGS, deadline()).map_err(unsent)?;
    let unfit = |why: &str| Err(Fault::Refused { state: UNFIT.into(), text: why.into() });
    if settings.number(0, 0).is_none_or(|version| version < OLDEST) {
        return unfit("it is older than PostgreSQL 14");
    }
    if (settings.text(0, 1), settings.text(0, 2)) != (Some("on"), Some("on")) {
        return unfit("it runs with fsync or full_page_writes off, and may lose what it has answered");
    }
    match connection.run(STATEMENTS, deadline()).map_err(unsent)?.number(0, 0) {
        Some(SCHEMA) => Ok(connection),
        version => unfit(&format!("its schema is of version {version:?}, and not {SCHEMA}")),
    }
}

/// What stands for a SQLSTATE where it is this program that does not take the server.
const UNFIT: &str = "unfit";

/// A fault before the command itself was sent.
fn unsent(fault: Fault) -> Fault {
    match fault {
        Fault::Lost(why) => Fault::Unreachable(why),
        fault => fault,
    }
}

/// Whether the same command may do better later: another server takes over, a lock becomes free.
fn is_passing(fault: &Fault) -> bool {
    match fault {
        Fault::Unreachable(_) | Fault::Lost(_) => true,
        // Of a lock, a deadlock, and too many connections or too little of something else.
        Fault::Refused { state, .. } => {
            ["55P03", "40001", "40P01", "57014"].contains(&state.as_str()) || state.starts_with("53")
        }
    }
}

/// A fault of a command that stores nothing.
fn of(fault: Fault) -> Error {
    match &fault {
        Fault::Unreachable(_) | Fault::Lost(_) => Error::Unreachable(fault.to_string()),
        Fault::Refused { state, text } if state == UNFIT => Error::Unfit(format!("the server: {text}")),
        Fault::Refused { state, .. } if ["3F000", "42883", "42P01"].contains(&state.as_str()) => Error::NoLog(
            "the database has no run logs: an administrator runs what 'cindrolf schema' prints in it, once".into(),
        ),
        Fault::Refused { state, .. } if state == "54000" => Error::Forbidden(fault.to_string()),
        Fault::Refused { .. } => Error::Forbidden(fault.to_string()),
    }
}

/// The call that makes a fresh log, with a number that no other call has.
pub(crate) fn create_call(name: &str, client_count: u64, capacity: Capacity) -> String {
    let (name, words, chain) = (text(name), capacity.words(), bytes(&Known::fresh(client_count, capacity).chain));
    // The system seeds each of these at random. A process that is forked has the seed of its parent.
    let mut random = RandomState::new().build_hasher();
    random.write_u32(std::process::id());
    let creation = random.finish() as i64;
    format!("cindrolf.create_log({name}, {RULES}, {client_count}, {words}, {chain}, {creation})")
}

/// The command for a request that is a single write, if it is one.
fn write_command(log: i64, known: Known, request: &Request<'_>, process: &str) -> Option<String> {
    let [Asked { change: Change::Step(client, step), note }] = request.asked else { return None };
    if step.kind() != Kind::Write {
        return None;
    }
    let (rows, chain, id, process) = (known.rows, bytes(&known.chain), request.id as i64, text(process));
    let (client, value, note) = (*client as i64, step.value() as i64, note.as_deref().map_or("NULL".into(), text));
    Some(format!("EXECUTE append_write ({log}, {rows}, {chain}, {id}, {client}, {value}, {process}, {note})"))
}

fn append_command(log: i64, known: Known, request: &Request<'_>, process: &str) -> String {
    let list = |each: &dyn Fn(&Asked) -> String, of: &str| {
        let parts: Vec<String> = request.asked.iter().map(each).collect();
        format!("ARRAY[{}]::{of}[]", parts.join(","))
    };
    let kinds = list(&|asked| asked.change.kind().to_string(), "smallint");
    let null = || "NULL".to_owned();
    let clients =
        list(&|asked| asked.change.client().map_or_else(null, |client| (client as i64).to_string()), "bigint");
    let inputs = list(&|asked| bytes(&asked.change.input_bytes()), "bytea");
    let notes = list(&|asked| asked.note.as_deref().map_or_else(null, text), "text");
    let (rows, chain, id, process) = (known.rows, bytes(&known.chain), request.id as i64, text(process));
    format!("EXECUTE append ({log}, {rows}, {chain}, {id}, {kinds}, {clients}, {inputs}, {process}, {notes})")
}

/// The row of these columns, as the server gives them. None where it can't be one.
pub(crate) fn load(rows: &Rows, row: usize) -> Option<Row> {
    let input = bytes_of(rows.text(row, 5)?)?;
    let client = rows.number(row, 4).map(|client| client as u64);
    let change = change(rows.number(row, 3)? as u64, client, &input)?;
    let chain = bytes_of(rows.text(row, 6)?)?.try_into().ok()?;
    let known = Known { rows: rows.number(row, 0)?, chain };
    let told: Option<Stamp> = None;
    Some(Row { id: rows.number(row, 1)? as u64, index: rows.number(row, 2)? as u64, change, known, told })
}

/// The step of a kind, with its client and the bytes of its input.
fn change(kind: u64, client: Option<u64>, input: &[u8]) -> Option<Change> {
    let word = || Some(u64::from_be_bytes(input.try_into().ok()?));
    let name = || Some(MarkName(input.try_into().ok()?));
    Some(match (Kind::from_number(kind), kind) {
        (Some(Kind::Write), _) => Change::Step(client?, Step::write(word()?)),
        (Some(kind), _) if input.is_empty() => Change::Step(client?, Step::new(kind, 0)),
        (None, WRITE_SCORES) => {
            let (pairs, rest) = input.as_chunks();
            let scores = rest.is_empty().then(|| pairs.iter().map(|&pair| u16::from_le_bytes(pair)).collect());
            Change::WriteScores(client?, scores?)
        }
        (None, SET_MARK) if client.is_none() => Change::SetMark(name()?),
        (None, DROP_MARK) if client.is_none() => Change::DropMark(name()?),
        (None, SET_RIGHTS) => Change::SetRights(client?, word()?),
        _ => return None,
    })
}
