//! Processes that share the logs of a run, to be killed and stopped at any moment.

use crate::notes;
use crate::place::Place;
use crate::signals::{SIGCONT, SIGSTOP, send};
use crate::waits::now;
use crate::worker::{Mode, Worker};
use model::random::Random;
use std::fs::{File, metadata};
use std::io::{Read, Seek, SeekFrom};
use std::path::Path;
use std::process::{Child, Command, ExitCode, Stdio};
use std::time::{Duration, Instant};
use store::Stored;

/// How many processes there are.
pub const PROCESSES: u64 = 16;

/// The word by which a program of tests is told to be one of the processes.
pub const WORKER: &str = "worker";

/// The status of a process that was not told whether its last step is stored.
pub const UNKNOWN: u8 = 3;

/// The processes of a run, which this program starts as itself. They are killed with it.
pub struct Processes {
    /// Where the logs are, as each process calls it.
    places: Vec<Place>,
    mode: Mode,
    /// Whether they do not say why they end.
    quiet: bool,
    children: Vec<Child>,
    /// Those that are stopped, since when and until when.
    stopped: Vec<(usize, u64, Instant)>,
    /// How often one was killed.
    pub kills: u64,
    /// Who was stopped and went on, from when to when, in microseconds since 1970.
    stops: Vec<(u64, u64, u64)>,
}

impl Processes {
    /// Starts a process at each place. Those of a control may end by themselves, and are quiet about it.
    pub fn start(places: Vec<Place>, mode: Mode, quiet: bool, random: &mut Random) -> Result<Processes, String> {
        let (children, stopped, stops) = (Vec::new(), Vec::new(), Vec::new());
        let mut processes = Processes { places, mode, quiet, children, stopped, kills: 0, stops };
        for number in 0..processes.places.len() {
            let child = processes.child(number, random)?;
            processes.children.push(child);
        }
        Ok(processes)
    }

    fn child(&self, number: usize, random: &mut Random) -> Result<Child, String> {
        let program = std::env::current_exe().map_err(|error| error.to_string())?;
        let mut command = Command::new(program);
        command.args([WORKER, &number.to_string(), self.mode.name(), &random.word().to_string()]);
        let place = &self.places[number];
        command.arg(place.folder()).args(place.database());
        if self.quiet {
            command.stderr(Stdio::null());
        }
        command.spawn().map_err(|error| format!("cannot start a process: {error}"))
    }

    fn folder(&self) -> &Path {
        self.places[0].folder()
    }

    /// A process to disturb: any, or half the time one that has just asked for a write.
    pub fn choose(&self, random: &mut Random) -> usize {
        let number = if random.chance(50) { has_just_asked(self.folder(), random) } else { None };
        number.unwrap_or_else(|| random.below(PROCESSES)) as usize
    }

    /// Has those go on whose time has come.
    pub fn wake(&mut self) -> Result<(), String> {
        let (due, later) = self.stopped.iter().partition(|(.., until)| *until <= Instant::now());
        self.stopped = later;
        for (number, since, _) in due {
            send(&self.children[number], SIGCONT).map_err(|error| error.to_string())?;
            self.stops.push((number as u64, since, now()));
        }
        Ok(())
    }

    /// Stops a process for a while.
    pub fn stop(&mut self, number: usize, time: Duration) -> Result<(), String> {
        self.still_works(number)?;
        let since = now();
        send(&self.children[number], SIGSTOP).map_err(|error| error.to_string())?;
        self.stopped.push((number, since, Instant::now() + time));
        Ok(())
    }

    /// Kills a process, stopped or not, and starts it again.
    pub fn kill(&mut self, number: usize, random: &mut Random) -> Result<(), String> {
        self.still_works(number)?;
        let child = &mut self.children[number];
        child.kill().and_then(|()| child.wait()).map_err(|error| error.to_string())?;
        self.stopped.retain(|(stopped, ..)| *stopped != number);
        self.children[number] = self.child(number, random)?;
        self.kills += 1;
        Ok(())
    }

    /// A process that has ended by itself has failed.
    pub fn still_works(&mut self, number: usize) -> Result<(), String> {
        match self.children[number].try_wait().map_err(|error| error.to_string())? {
            Some(status) => Err(format!("process {number} failed: it ended by itself with {status}")),
            None => Ok(()),
        }
    }

    /// Who was stopped, from when to when, in microseconds since 1970.
    pub fn stops_until_now(&self) -> Vec<(u64, u64, u64)> {
        let still = self.stopped.iter().map(|&(number, since, _)| (number as u64, since, now()));
        self.stops.iter().copied().chain(still).collect()
    }

    /// Starts those again that have ended by themselves, and gives the status of each.
    pub fn tend(&mut self, random: &mut Random) -> Result<Vec<Option<i32>>, String> {
        let mut ended = Vec::new();
        for number in 0..self.children.len() {
            if let Some(status) = self.children[number].try_wait().map_err(|error| error.to_string())? {
                ended.push(status.code());
                self.stopped.retain(|(stopped, ..)| *stopped != number);
                self.children[number] = self.child(number, random)?;
            }
        }
        Ok(ended)
    }
}

impl Drop for Processes {
    fn drop(&mut self) {
        for child in &mut self.children {
            let _ = child.kill();
            let _ = child.wait();
        }
    }
}

/// What a process does until it is killed, by the words after [`WORKER`]. It ends by itself only where something fails.
pub fn work(words: &[&str]) -> ExitCode {
    let number = |word: &str| word.parse::<u64>().expect("a number");
    let &[process, mode, seed, folder, ref database @ ..] = words else { return ExitCode::from(2) };
    let place = Place::new(Path::new(folder), database.first().copied());
    let mode = Mode::from_name(mode).expect("a mode");
    let worker = Worker::start(&place, number(process), PROCESSES, mode, number(seed));
    let error = worker.map_or_else(|error| error, Worker::run);
    eprintln!("process {process}: {error}");
    if error.stored() == Stored::Unknown { ExitCode::from(UNKNOWN) } else { ExitCode::FAILURE }
}

/// A process that has just asked for a write, a moment after that: the write is about to be stored, or answered.
fn has_just_asked(folder: &Path, random: &mut Random) -> Option<u64> {
    let size = |number| metadata(notes::file(folder, number)).map_or(0, |file| file.len());
    let mut sizes: Vec<u64> = (0..PROCESSES).map(size).collect();
    let until = Instant::now() + Duration::from_millis(50);
    while Instant::now() < until {
        for number in 0..PROCESSES {
            let now = size(number);
            if now > sizes[number as usize] && asked_last(folder, number) {
                let pause = Instant::now() + Duration::from_micros(random.below(400));
                while Instant::now() < pause {
                    std::hint::spin_loop();
                }
                return Some(number);
            }
            sizes[number as usize] = now;
        }
    }
    None
}

/// Whether the last line of a process's notes is a request.
fn asked_last(folder: &Path, number: u64) -> bool {
    let read = || {
        let mut file = File::open(notes::file(folder, number))?;
        let mut end = [0; 64];
        file.seek(SeekFrom::End(-64)).or_else(|_| file.rewind().map(|()| 0))?;
        let count = file.read(&mut end)?;
        let text = String::from_utf8_lossy(&end[..count]).into_owned();
        Ok::<_, std::io::Error>(text.trim_end().rsplit('\n').next().is_some_and(|line| line.starts_with("asked")))
    };
    read().unwrap_or(false)
}
