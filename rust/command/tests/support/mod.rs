//! A fresh folder for logs, and the program run in it.

#![allow(dead_code)]

pub mod reads;

use std::io::{BufRead, BufReader, Lines, Write};
use std::ops::Range;
use std::os::unix::process::CommandExt;
use std::path::{Path, PathBuf};
use std::process::{Child, ChildStdin, ChildStdout, Command, Stdio};
use std::sync::atomic::{AtomicU64, Ordering};
use std::time::Duration;
use store::Fault;
use store::database::{Database, Mode, Row, Value};

/// The name of the process in the rows that the program stores.
pub const PROCESS: &str = "lab1 cindrolf[812]";

pub const SIGHUP: i32 = 1;
pub const SIGINT: i32 = 2;
pub const SIGTERM: i32 = 15;
pub const SIGCONT: i32 = 18;
pub const SIGSTOP: i32 = 19;

unsafe extern "C" {
    fn kill(process: i32, signal: i32) -> i32;
    fn signal(number: i32, handler: usize) -> usize;
}

/// Sends a signal to a child that was not waited for yet.
pub fn send(child: &Child, signal: i32) {
    // SAFETY: it takes two numbers.
    assert_eq!(unsafe { kill(child.id() as i32, signal) }, 0);
}

/// A folder of its own, which is removed with it.
pub struct Folder(PathBuf);

/// How a run of the program ended.
#[derive(Debug, PartialEq, Eq)]
pub struct Ended {
    pub status: Option<i32>,
    pub output: String,
    pub errors: String,
}

impl Folder {
    pub fn new() -> Self {
        static NEXT: AtomicU64 = AtomicU64::new(0);
        let next = NEXT.fetch_add(1, Ordering::Relaxed);
        let folder = std::env::temp_dir().join(format!("cindrolf-log-{}-{next}", std::process::id()));
        std::fs::create_dir(&folder).unwrap();
        Folder(folder)
    }

    /// A folder with a log for so many clients in `run.log`.
    pub fn with_log(clients: u64) -> Self {
        let folder = Folder::new();
        folder.quiet(&["create", "run.log", &clients.to_string()]);
        folder
    }

    /// A folder in which the program is installed, with stand-ins for the proved programs: each prints its own name and
    /// then its input.
    pub fn installed() -> Self {
        let folder = Folder::new();
        for part in ["bin", "libexec/cindrolf"] {
            std::fs::create_dir_all(folder.path(part)).unwrap();
        }
        let copied = Command::new("cp").arg(env!("CARGO_BIN_EXE_cindrolf")).arg(folder.path("bin")).status();
        assert!(copied.unwrap().success());
        for name in ["session", "total"] {
            folder.start_instead(name, &format!("echo {name}\nexec /bin/cat"));
        }
        folder
    }

    /// Puts a script in the place of a proved program. Another process writes it: a program that is open for writing, even
    /// in a child of another test that has yet to begin, cannot be started.
    pub fn start_instead(&self, name: &str, script: &str) {
        let put = "printf '#!/bin/sh\\n%s\\n' \"$1\" >\"$0\" && chmod 755 \"$0\"";
        let program = self.path("libexec/cindrolf").join(name);
        assert!(Command::new("sh").args(["-c", put]).arg(program).arg(script).status().unwrap().success());
    }

    pub fn path(&self, name: &str) -> PathBuf {
        self.0.join(name)
    }

    /// The program, to be started in the folder with these arguments.
    pub fn program(&self, args: &[&str]) -> Command {
        let mut program = Command::new(env!("CARGO_BIN_EXE_cindrolf"));
        program.args(args).current_dir(&self.0).stdin(Stdio::null()).stdout(Stdio::piped()).stderr(Stdio::piped());
        // Else it is the host's and the program's, with its number.
        program.env("CINDROLF_PROCESS", PROCESS);
        // What a script starts in the background ignores SIGINT, and so would the program.
        // SAFETY: between fork and exec a process may set its signals to their default, 0.
        unsafe {
            program.pre_exec(|| {
                for number in [SIGHUP, SIGINT, SIGTERM] {
                    signal(number, 0);
                }
                Ok(())
            })
        };
        program
    }

    pub fn run(&self, args: &[&str]) -> Ended {
        ended(self.program(args).spawn().unwrap())
    }

    /// Runs it with this standard input.
    pub fn run_on(&self, args: &[&str], input: &[u8]) -> Ended {
        let mut child = self.program(args).stdin(Stdio::piped()).spawn().unwrap();
        let mut pipe = child.stdin.take().unwrap();
        let input = input.to_vec();
        let writer = std::thread::spawn(move || pipe.write_all(&input));
        let ended = ended(child);
        let _ = writer.join().unwrap();
        ended
    }

    /// What it prints where it does as it is told.
    pub fn output(&self, args: &[&str]) -> String {
        let ended = self.run(args);
        assert_eq!((ended.status, ended.errors.as_str()), (Some(0), ""), "{args:?}");
        ended.output
    }

    /// Runs what prints nothing.
    pub fn quiet(&self, args: &[&str]) {
        assert_eq!(self.output(args), "", "{args:?}");
    }

    /// The first line that the check of a file prints.
    pub fn checked(&self, file: &str) -> String {
        self.output(&["check", file]).lines().next().unwrap().to_owned()
    }

    /// The last row of a log, with its chain value worked out here.
    pub fn last_row(&self, file: &str) -> String {
        let (number, chain) = last(&self.path(file));
        format!("{number}:{}", chain.iter().map(|byte| format!("{byte:02x}")).collect::<String>())
    }

    /// The names in it, in their order.
    pub fn names(&self) -> Vec<String> {
        let files = std::fs::read_dir(&self.0).unwrap();
        let mut names: Vec<_> = files.map(|file| file.unwrap().file_name().into_string().unwrap()).collect();
        names.sort();
        names
    }

    /// Copies a single file, as a person would who does not know of the files beside it.
    pub fn copy_one(&self, from: &str, to: &str) {
        std::fs::copy(self.path(from), self.path(to)).unwrap();
    }

    /// A shell that has this script run the program, as `$0`, in the folder.
    pub fn shell(&self, script: &str) -> Command {
        let mut shell = Command::new("sh");
        shell.args(["-c", script, env!("CARGO_BIN_EXE_cindrolf")]).current_dir(&self.0);
        shell.stdin(Stdio::null()).stdout(Stdio::piped()).stderr(Stdio::piped());
        shell
    }

    /// Takes these steps on `run.log`, and gives the replies.
    pub fn steps(&self, lines: &[&str]) -> String {
        self.output(&[&["step", "run.log"], lines].concat())
    }

    /// What it says on standard error, where it fails with this status and prints nothing.
    pub fn failure(&self, status: i32, args: &[&str]) -> String {
        let ended = self.run(args);
        assert_eq!((ended.status, ended.output.as_str()), (Some(status), ""), "{args:?}: {}", ended.errors);
        ended.errors
    }
}

impl Drop for Folder {
    fn drop(&mut self) {
        let _ = std::fs::remove_dir_all(&self.0);
    }
}

/// A process that takes steps on `run.log` line by line.
pub struct Stepper {
    pub child: Child,
    pub input: ChildStdin,
    pub replies: Lines<BufReader<ChildStdout>>,
}

impl Stepper {
    pub fn start(folder: &Folder) -> Self {
        Stepper::of(folder.program(&["step", "run.log"]))
    }

    pub fn of(mut program: Command) -> Self {
        let mut child = program.stdin(Stdio::piped()).spawn().unwrap();
        let (input, output) = (child.stdin.take().unwrap(), child.stdout.take().unwrap());
        Stepper { child, input, replies: BufReader::new(output).lines() }
    }

    /// Gives it one line, and waits for the reply to it before there is another.
    pub fn take(&mut self, line: &str) -> String {
        writeln!(self.input, "{line}").unwrap();
        self.replies.next().unwrap().unwrap()
    }

    pub fn end(self) {
        drop(self.input);
        let end = ended(self.child);
        assert_eq!((end.status, end.errors.as_str()), (Some(0), ""));
    }
}

pub fn ended(child: Child) -> Ended {
    let output = child.wait_with_output().unwrap();
    let text = |bytes: Vec<u8>| String::from_utf8(bytes).unwrap();
    Ended { status: output.status.code(), output: text(output.stdout), errors: text(output.stderr) }
}

/// The last row of a log and its chain value, as docs/SHARING.md says: over that of the row before and the row's bytes.
fn last(path: &Path) -> (i64, Vec<u8>) {
    let database = Database::open(path, Mode::Existing, Duration::from_secs(10)).unwrap();
    let numbers = |row: Row<'_>, columns: Range<i32>| -> Vec<u8> {
        let number = |column| match row.value(column) {
            Value::Integer(number) => number as u64,
            _ => 0,
        };
        columns.flat_map(|column| number(column).to_be_bytes()).collect()
    };
    let hash = |bytes: &[u8]| digest::sha256(bytes)[..16].to_vec();
    let mut fresh = database.prepare("SELECT rules, client_count, entry_words FROM log").unwrap();
    let mut chain = fresh.first(&[], |row| Some(hash(&numbers(row, 0..3)))).unwrap().unwrap();
    let mut count = 0;
    let mut rows = database.prepare("SELECT request, part, kind, client, input FROM journal ORDER BY seq").unwrap();
    let read = rows.each(&[], |row| {
        let (is_mark, mut input) = (row.value(3) == Value::Null, numbers(row, 4..5));
        match row.value(4) {
            Value::Blob(name) if is_mark => input[..name.len()].copy_from_slice(name),
            Value::Blob(scores) => input = scores.to_vec(),
            Value::Integer(_) => {}
            _ => input.clear(),
        }
        chain = hash(&[chain.clone(), numbers(row, 0..4), input].concat());
        count += 1;
        Ok::<(), Fault>(())
    });
    read.unwrap();
    (count, chain)
}

/// Copies a file of the earlier format.
pub fn old(name: &str, to: &Path) {
    std::fs::copy(expected::files::root().join("rust/store_tests/old").join(name), to).unwrap();
}

/// The values of a chain line.
pub fn values(chain: &str) -> Vec<u64> {
    let words = chain.strip_prefix("chain").unwrap().split_whitespace();
    words.map(|word| word.split_once(':').unwrap().1.parse().unwrap()).collect()
}

/// A file of the repository, from its root.
pub fn kept(file: impl AsRef<Path>) -> String {
    std::fs::read_to_string(expected::files::root().join(file)).unwrap()
}
