//! The bytes of reads: from a file, a pipe or standard input, plain or packed by gzip.
//!
//! The first two bytes show whether input is packed. The command gzip unpacks it: it is on every Debian, runs on
//! another core, and the program links no library for it.

use crate::failure::Failure;
use crate::signals::{Signals, Waited};
use crate::{closed, given};
use std::fs::File;
use std::io::{self, Cursor, ErrorKind, Read, Seek};
use std::os::fd::{AsFd, OwnedFd};
use std::os::unix::fs::FileExt;
use std::os::unix::process::CommandExt;
use std::path::Path;
use std::process::{Child, Command, Stdio};

/// What everything begins with that gzip has packed.
const GZIP: [u8; 2] = [0x1F, 0x8B];

/// An input that is waited for, so that a signal ends it.
pub struct Input<'a> {
    /// What was read to see what it is.
    begun: Cursor<Vec<u8>>,
    file: File,
    signals: &'a Signals,
    /// Whether to wait for what is not there yet, in place of failing with `WouldBlock`.
    pub patient: bool,
    gzip: Option<Child>,
    /// The file itself, whose place gzip moves on too, and its size.
    whole: Option<(File, u64)>,
}

impl<'a> Input<'a> {
    /// Opens it; `-` is standard input. A packed file is tested whole before anything of it is given.
    pub fn open(name: &Path, signals: &'a Signals) -> Result<Input<'a>, Failure> {
        let failed = |error| failure(name, error);
        let of = |file| Input { begun: Cursor::default(), file, signals, patient: true, gzip: None, whole: None };
        if name == "-" {
            if closed::input() {
                return Err(Failure::Arguments("standard input is closed, and READS is -".into()));
            }
            let file = io::stdin().as_fd().try_clone_to_owned().map_err(failed)?;
            return of(file.into()).of_stream().map_err(failed);
        }
        let file = given::open(name)?;
        let about = file.metadata().map_err(failed)?;
        if !about.is_file() {
            return of(file).of_stream().map_err(failed);
        }
        let mut begin = [0; GZIP.len()];
        let is_packed = file.read_exact_at(&mut begin, 0).is_ok() && begin == GZIP;
        let mut input = of(file.try_clone().map_err(failed)?);
        if is_packed {
            tested(name)?;
            input.unpack(Stdio::from(file.try_clone().map_err(failed)?)).map_err(failed)?;
        }
        input.whole = Some((file, about.len()));
        Ok(input)
    }

    /// Looks at the first bytes of what can only be read once.
    fn of_stream(mut self) -> io::Result<Self> {
        let mut begin = Vec::new();
        self.by_ref().take(GZIP.len() as u64).read_to_end(&mut begin)?;
        let is_packed = begin == GZIP;
        self.begun = Cursor::new(begin);
        if !is_packed {
            return Ok(self);
        }
        let mut packed = Cursor::new(GZIP).chain(self.file.try_clone()?);
        self.begun = Cursor::default();
        let mut into = self.unpack(Stdio::piped())?.stdin.take().ok_or(ErrorKind::BrokenPipe)?;
        // It ends with its input, or with the program. What gzip does not take, gzip says.
        std::thread::spawn(move || io::copy(&mut packed, &mut into));
        Ok(self)
    }

    /// Goes on with what gzip makes of its input. In a process group of its own Ctrl-C does not end it.
    fn unpack(&mut self, packed: Stdio) -> io::Result<&mut Child> {
        let mut gzip = Command::new("gzip");
        gzip.arg("-dc").stdin(packed).stdout(Stdio::piped()).stderr(Stdio::piped()).process_group(0);
        let mut gzip = gzip.spawn().map_err(not_started)?;
        self.file = OwnedFd::from(gzip.stdout.take().ok_or(ErrorKind::BrokenPipe)?).into();
        Ok(self.gzip.insert(gzip))
    }

    /// At its end: what gzip says is wrong with it, if anything is.
    pub fn fault(&mut self) -> Option<String> {
        fault(self.gzip.take()?)
    }

    /// How much of a file was read, and how much there is.
    pub fn progress(&mut self) -> Option<(u64, u64)> {
        let (file, size) = self.whole.as_mut()?;
        Some((file.stream_position().ok()?, *size))
    }
}

impl Read for Input<'_> {
    /// A signal is the end.
    fn read(&mut self, room: &mut [u8]) -> io::Result<usize> {
        let count = self.begun.read(room)?;
        if count > 0 {
            return Ok(count);
        }
        let time = if self.patient { None } else { Some(std::time::Duration::ZERO) };
        match self.signals.wait(self.file.as_fd(), time)? {
            Waited::Ready => self.file.read(room),
            Waited::Idle => Err(ErrorKind::WouldBlock.into()),
            Waited::Signal => Ok(0),
        }
    }
}

/// An input that cannot be read.
pub fn failure(name: &Path, error: io::Error) -> Failure {
    if name == "-" { Failure::Input(error) } else { Failure::File(name.into(), format!("it cannot be read: {error}")) }
}

/// That gzip can unpack the whole file: a sum at its end tells whether all before it is as it was.
fn tested(name: &Path) -> Result<(), Failure> {
    let mut gzip = Command::new("gzip");
    gzip.arg("-t").stdin(given::open(name)?).stdout(Stdio::null()).stderr(Stdio::piped()).process_group(0);
    let gzip = gzip.spawn().map_err(|error| Failure::File(name.into(), not_started(error).to_string()))?;
    match fault(gzip) {
        Some(why) => Err(Failure::File(name.into(), format!("{why}; nothing of it is stored: get the file once more"))),
        None => Ok(()),
    }
}

fn not_started(error: io::Error) -> io::Error {
    io::Error::other(format!("gzip, which is to unpack it, cannot be started: {error}"))
}

/// Waits for gzip, and gives what it says is wrong.
fn fault(gzip: Child) -> Option<String> {
    let ended = match gzip.wait_with_output() {
        Ok(ended) if ended.status.success() => return None,
        ended => ended.ok(),
    };
    let said =
        ended.map_or(String::new(), |ended| String::from_utf8_lossy(&ended.stderr).trim().replace("gzip: stdin: ", ""));
    let said = said.lines().map(str::trim).filter(|line| !line.is_empty()).collect::<Vec<_>>().join(", ");
    Some(format!("what gzip has packed is cut or damaged: {}", if said.is_empty() { "it gave up" } else { &said }))
}
