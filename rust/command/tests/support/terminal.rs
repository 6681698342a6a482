//! A terminal in which a test starts the program, and what it shows.

use std::ffi::{c_int, c_ulong, c_void};
use std::fs::File;
use std::io::{Read, Write};
use std::os::fd::{AsRawFd, FromRawFd};
use std::os::unix::process::CommandExt;
use std::process::{Child, Command, Stdio};
use std::sync::mpsc::{Receiver, channel};
use std::time::{Duration, Instant};

const TIOCSWINSZ: c_ulong = 0x5414;
const TIOCSCTTY: c_ulong = 0x540E;

unsafe extern "C" {
    fn openpty(
        main: *mut c_int,
        side: *mut c_int,
        name: *mut c_void,
        modes: *const c_void,
        size: *const [u16; 4],
    ) -> c_int;
    fn ioctl(file: c_int, request: c_ulong, ...) -> c_int;
    fn setsid() -> c_int;
}

/// A program in a terminal.
pub struct Terminal {
    pub child: Child,
    main: File,
    bytes: Receiver<Vec<u8>>,
    /// All that was written to it.
    pub written: Vec<u8>,
    size: [u16; 2],
}

impl Terminal {
    /// Starts the program in a terminal of so many lines and columns, from which Ctrl-C comes.
    pub fn start(mut program: Command, lines: u16, columns: u16) -> Self {
        let (mut main, mut side) = (-1, -1);
        let size = [lines, columns, 0, 0];
        // SAFETY: the call makes two files, which are nobody else's.
        let (main, side) = unsafe {
            let none = std::ptr::null_mut();
            assert_eq!(openpty(&raw mut main, &raw mut side, none, none, &raw const size), 0);
            (File::from_raw_fd(main), File::from_raw_fd(side))
        };
        let (input, output) = (side.try_clone().unwrap(), side.try_clone().unwrap());
        program.stdin(Stdio::from(input)).stdout(Stdio::from(output)).stderr(Stdio::from(side));
        // SAFETY: both calls may be made between fork and exec.
        unsafe {
            program.pre_exec(|| {
                setsid();
                ioctl(0, TIOCSCTTY, 0);
                Ok(())
            })
        };
        let child = program.spawn().unwrap();
        // Else this process would hold the other side open.
        drop(program);
        let (to, bytes) = channel();
        let mut from = main.try_clone().unwrap();
        std::thread::spawn(move || {
            let mut buffer = [0; 65536];
            while let Ok(count @ 1..) = from.read(&mut buffer) {
                if to.send(buffer[..count].to_vec()).is_err() {
                    break;
                }
            }
        });
        Terminal { child, main, bytes, written: Vec::new(), size: [lines, columns] }
    }

    /// Presses keys.
    pub fn press(&mut self, keys: &[u8]) {
        self.main.write_all(keys).unwrap();
    }

    /// Gives it another size.
    pub fn resize(&mut self, lines: u16, columns: u16) {
        let size = [lines, columns, 0, 0];
        // SAFETY: the call reads four numbers.
        assert_eq!(unsafe { ioctl(self.main.as_raw_fd(), TIOCSWINSZ, &raw const size) }, 0);
        self.size = [lines, columns];
    }

    /// Reads for so long.
    pub fn read_for(&mut self, time: Duration) {
        let until = Instant::now() + time;
        while let Ok(bytes) = self.bytes.recv_timeout(until.saturating_duration_since(Instant::now())) {
            self.written.extend(bytes);
        }
    }

    /// Reads until the screen is this one.
    pub fn expect(&mut self, screen: &str) {
        let until = Instant::now() + Duration::from_secs(20);
        while self.screen() != screen {
            assert!(Instant::now() < until, "shown:\n{}\nexpected:\n{screen}", self.screen());
            self.read_for(Duration::from_millis(20));
        }
    }

    /// Reads to the end, and gives the status.
    pub fn end(&mut self) -> std::process::ExitStatus {
        let status = self.child.wait().unwrap();
        self.read_for(Duration::from_millis(300));
        status
    }

    /// The lines that are seen now, without the spaces and the empty lines at their ends.
    pub fn screen(&self) -> String {
        let text = String::from_utf8_lossy(&self.written).into_owned();
        let (mut lines, mut at) = (vec![String::new(); self.size[0].into()], (0, 0));
        let mut rest = text.as_str();
        while let Some(first) = rest.chars().next() {
            let escape = rest.strip_prefix("\x1B[").and_then(|rest| {
                let length = rest.find(|character: char| character.is_ascii_alphabetic())?;
                Some(&rest[..=length])
            });
            match (escape, first) {
                (Some("H"), _) => at = (0, 0),
                (Some("K"), _) => cut(&mut lines, at),
                (Some("J"), _) => {
                    cut(&mut lines, at);
                    lines.iter_mut().skip(at.0 + 1).for_each(String::clear);
                }
                (Some(_), _) => {}
                (None, '\r') => at.1 = 0,
                (None, '\n') => at.0 += 1,
                (None, character) => {
                    put(&mut lines, at, character);
                    at.1 += 1;
                }
            }
            rest = &rest[escape.map_or(first.len_utf8(), |escape| 2 + escape.len())..];
        }
        let lines: Vec<_> = lines.iter().map(|line| line.trim_end()).collect();
        lines.join("\n").trim_end().to_owned() + "\n"
    }
}

fn cut(lines: &mut [String], (line, column): (usize, usize)) {
    if let Some(line) = lines.get_mut(line) {
        *line = line.chars().take(column).collect();
    }
}

fn put(lines: &mut [String], (line, column): (usize, usize), character: char) {
    if let Some(line) = lines.get_mut(line) {
        let mut characters: Vec<char> = line.chars().collect();
        characters.resize(characters.len().max(column + 1), ' ');
        characters[column] = character;
        *line = characters.into_iter().collect();
    }
}
