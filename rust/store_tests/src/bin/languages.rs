//! Lets controllers in several languages share logs, kills them at any moment, and audits the logs as `killing` does.

use cindrolf::{Kind, Step};
use limits::LEDGER_LIMIT;
use model::random::Random;
use std::io::Write;
use std::path::Path;
use std::process::ExitCode;
use std::time::{Duration, Instant};
use store::{PATIENCE, Store};
use store_tests::audit::{self, Counts};
use store_tests::journal;
use store_tests::languages::Controller;
use store_tests::place::{Place, capacity_of};
use store_tests::scratch::Scratch;
use store_tests::worker::Mode;

/// How long a log is shared; and the entries and ledgers that it is left with, so that no controller finds it full.
const TIME_OF_A_LOG: Duration = Duration::from_secs(5);
const SPARE_ENTRIES: u64 = 64;
const SPARE_LEDGERS: u64 = 16;

/// How long a controller may take to start.
const STARTING: Duration = Duration::from_secs(1);

/// How many steps the election takes for the one that it names.
const STEPS: usize = 4;

/// How long the election waits for a leader that is stopped, and may hold the lock.
const ELECTION_PATIENCE: Duration = Duration::from_millis(20);

/// How long a leader is stopped at most. One that is stopped while it stores where the write-ahead log ends lets nobody read,
/// and SQLite tries for ten seconds, whatever the patience: the others would give up.
const STOPPED: Duration = Duration::from_millis(200);

/// How long the control may take to fail.
const CONTROL_TIME: Duration = Duration::from_secs(2);

/// The word that has this program be a wrong controller, the control: it says that each read is stored, and stores
/// none.
const LIAR: &str = "liar";

const USAGE: &str = "usage: languages SECONDS SEED COMMAND.. [-- COMMAND..]..";

/// What a run counted.
#[derive(Default)]
struct Done {
    kills: u64,
    deposed: u64,
    stored: Vec<u64>,
}

fn main() -> ExitCode {
    let words: Vec<String> = std::env::args().skip(1).collect();
    let number = |word: &String| word.parse::<u64>().ok();
    let result = match &words[..] {
        [liar, ..] if liar == LIAR => lie(),
        [seconds, seed, commands @ ..] => {
            let commands: Vec<Vec<String>> = commands.split(|word| word == "--").map(<[String]>::to_vec).collect();
            match (number(seconds), number(seed)) {
                (Some(seconds), Some(seed)) if commands.iter().all(|words| !words.is_empty()) => {
                    test(seconds, seed, &commands)
                }
                _ => Err(USAGE.into()),
            }
        }
        _ => Err(USAGE.into()),
    };
    match result {
        Ok(()) => ExitCode::SUCCESS,
        Err(why) => {
            eprintln!("languages: {why}");
            ExitCode::FAILURE
        }
    }
}

/// What a wrong controller does.
fn lie() -> Result<(), String> {
    for line in std::io::stdin().lines() {
        let value = line.map_err(|error| error.to_string())?;
        let told = writeln!(std::io::stdout(), "stored {value} as entry 0 place 0");
        told.map_err(|error| error.to_string())?;
    }
    Ok(())
}

fn test(seconds: u64, seed: u64, commands: &[Vec<String>]) -> Result<(), String> {
    println!("languages: {} controllers for {seconds} s, seed {seed}", commands.len());
    let mut random = Random::new(seed);
    let scratch = Scratch::below(&std::env::temp_dir());
    let done = share(scratch.folder(), commands, Controller::end, Duration::from_secs(seconds), &mut random)?;
    let counts = audit(scratch.folder(), commands.len() as u64)?;
    let Counts { logs, steps, acknowledged, besides, refused, .. } = counts;
    println!("languages: {} kills, {} leaders deposed, {steps} steps in {logs} logs", done.kills, done.deposed);
    for (command, stored) in commands.iter().zip(&done.stored) {
        println!("languages: {stored} reads by {}", command.join(" "));
    }
    println!("languages: each of {acknowledged} acknowledged writes is there once, and {besides} besides");
    println!("languages: {refused} refusals are what the model gives at their row");
    if done.kills == 0 || refused == 0 || done.stored.contains(&0) {
        return Err("the run shows nothing: nobody was killed, nothing was refused, or somebody stored nothing".into());
    }
    control(commands, &mut random)
}

/// Where one of them tells of reads that it does not store, the audit has to find it.
fn control(commands: &[Vec<String>], random: &mut Random) -> Result<(), String> {
    let scratch = Scratch::below(&std::env::temp_dir());
    let mut commands = commands.to_vec();
    let program = std::env::current_exe().map_err(|error| error.to_string())?;
    commands[0] = vec![program.display().to_string(), LIAR.into()];
    share(scratch.folder(), &commands, Controller::kill, CONTROL_TIME, random)?;
    match audit(scratch.folder(), commands.len() as u64) {
        Err(why) => println!("languages: the control fails, as it must: {why}"),
        Ok(_) => return Err("the control did not fail, so this test would not find a read that is lost".into()),
    }
    Ok(())
}

fn audit(folder: &Path, clients: u64) -> Result<Counts, String> {
    let place = Place::new(folder, None);
    audit::audit(&place, clients, Mode::Sound, &|log| journal::of_file(&place.log(log)))
}

/// How a controller is brought to its end.
type End = fn(&mut Controller) -> Result<(), String>;

/// Has controllers share one log after the other for a time.
fn share(
    folder: &Path,
    commands: &[Vec<String>],
    end: End,
    time: Duration,
    random: &mut Random,
) -> Result<Done, String> {
    let (place, last) = (Place::new(folder, None), Instant::now() + time);
    let started = (0..).zip(commands).map(|(number, command)| Controller::new(folder, number, command));
    let mut controllers = started.collect::<Result<Vec<_>, String>>()?;
    let mut done = Done::default();
    for log in 0.. {
        let (file, clients) = (place.log(log), commands.len() as u64);
        let mut store = Store::create(&file, clients, capacity_of(log)).map_err(|error| error.to_string())?;
        controllers.iter_mut().try_for_each(|controller| controller.start(log, &file))?;
        let until = last.min(Instant::now() + TIME_OF_A_LOG);
        while Instant::now() < until && disturb(&mut store, &mut controllers, random, &mut done)? {}
        // One that was just started has to have got as far as to hear a signal.
        std::thread::sleep(STARTING);
        controllers.iter_mut().try_for_each(end)?;
        if Instant::now() >= last {
            break;
        }
    }
    done.stored = controllers.iter().map(|controller| controller.stored).collect();
    Ok(done)
}

/// Gives reads, and now and then kills a controller or deposes the leader. False where the log is about to be full.
fn disturb(
    store: &mut Store,
    controllers: &mut [Controller],
    random: &mut Random,
    done: &mut Done,
) -> Result<bool, String> {
    let (known, named, full) = look(store)?;
    controllers.iter_mut().try_for_each(|controller| controller.tend(known))?;
    std::thread::sleep(Duration::from_micros(random.below(1_000)));
    match random.below(100) {
        0 | 1 => {
            // Half the time the one that is writing.
            let number = if random.chance(50) { named } else { random.below(controllers.len() as u64) };
            controllers[number as usize].kill_and_start()?;
            done.kills += 1;
        }
        // The leader is deposed, at times while it does not move.
        2 | 3 => {
            let next = (named + 1) % controllers.len() as u64;
            let deposed = if random.chance(50) {
                controllers[named as usize].while_stopped(STOPPED, || lead(store, next))?
            } else {
                lead(store, next)?
            };
            done.deposed += u64::from(deposed);
        }
        _ => {}
    }
    Ok(!full)
}

/// Names a client, and takes steps for it as a second process of it would: so the controllers find that another was faster.
/// Says whether it is named.
fn lead(store: &mut Store, client: u64) -> Result<bool, String> {
    store.set_patience(ELECTION_PATIENCE);
    let named = elect(store, client);
    store.set_patience(PATIENCE);
    named
}

fn elect(store: &mut Store, client: u64) -> Result<bool, String> {
    let done = |store: &mut Store, kind| match store.take(client, Step::new(kind, 0)) {
        Ok(_) => Ok(true),
        // Another was faster, or one that is stopped holds the lock.
        Err(error) if error.refusal().is_some() || error.is_busy() => Ok(false),
        Err(error) => Err(error.to_string()),
    };
    let named = done(store, Kind::Name)?;
    for _ in 0..STEPS {
        let latest = match store.latest() {
            Err(error) if error.is_busy() => break,
            latest => latest.map_err(|error| error.to_string())?,
        };
        match latest.log().advise(client).map_err(|error| error.to_string())? {
            None | Some(Kind::Write) => break,
            Some(kind) => done(store, kind)?,
        };
    }
    Ok(named)
}

/// The rows of a log, its named leader, and whether it is about to be full.
fn look(store: &mut Store) -> Result<(i64, u64, bool), String> {
    let latest = store.latest().map_err(|error| error.to_string())?;
    let view = latest.view().map_err(|error| error.to_string())?;
    let entries = view.entry_count() + SPARE_ENTRIES > view.capacity().words() as u64;
    let ledgers = view.next_ledger().is_none_or(|next| next.0 + SPARE_LEDGERS > LEDGER_LIMIT);
    Ok((latest.rows(), view.named_leader(), entries || ledgers))
}
