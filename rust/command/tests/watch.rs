//! `watch`, on a terminal and without one, ended by a key, a signal or a removal.

mod support;
#[path = "support/terminal.rs"]
mod terminal;

use std::fs;
use std::io::{BufRead, BufReader, Lines};
use std::os::unix::process::ExitStatusExt;
use std::process::{Child, ChildStdout};
use std::time::{Duration, Instant};
use store::database::{Database, Mode};
use support::{Folder, SIGINT, SIGTERM, Stepper, ended, send};
use terminal::Terminal;

const CTRL_C: &[u8] = b"\x03";
/// How a terminal is left: lines wrap, the cursor is seen, and what was on the screen is there again.
const LEFT: &str = "\x1B[?7h\x1B[?25h\x1B[?1049l";

/// When a row was stored, as the view of the steps has it.
fn time(folder: &Folder, row: u64) -> String {
    let database = Database::open(&folder.path("run.log"), Mode::Existing, Duration::from_secs(10)).unwrap();
    let time = "strftime('%Y-%m-%dT%H:%M:%S', time / 1000000, 'unixepoch') || printf('.%06dZ', time % 1000000)";
    database.text(&format!("SELECT {time} FROM journal WHERE seq = {row}")).unwrap().unwrap()
}

fn led() -> Folder {
    let folder = Folder::with_log(2);
    folder.steps(&["B 0", "F 0", "C 0", "P 0", "W 0 201"]);
    folder
}

fn written(terminal: &Terminal) -> String {
    String::from_utf8(terminal.written.clone()).unwrap()
}

#[test]
fn the_tables_follow_the_log() {
    let folder = led();
    let mut terminal = Terminal::start(folder.program(&["watch", "run.log"]), 30, 100);
    terminal.expect(&folder.output(&["show", "run.log"]));
    folder.steps(&["W 0 202", "W 0 203"]);
    terminal.expect(&folder.output(&["show", "run.log"]));
    // The second step is refused in its place, in one request with the first; then the leader changes.
    folder.steps(&["W 0 204", "W 1 7", "N 1", "B 1", "F 1", "L 1"]);
    let why = "write of client 1: the client does not lead";
    let refused = format!("refused row   9 {} {}\n              {why}\n\n", time(&folder, 9), support::PROCESS);
    let shown = refused + &folder.output(&["show", "run.log"]);
    terminal.expect(&shown);
    // A smaller terminal shows less, and says so; a larger one shows all again.
    terminal.resize(5, 40);
    let lines: Vec<String> = shown.lines().take(4).map(|line| line.chars().take(40).collect()).collect();
    let more = shown.lines().count() - 4;
    terminal.expect(&format!("{}\n({more} more lines: the terminal has 5)\n", lines.join("\n").trim_end()));
    terminal.resize(40, 120);
    terminal.expect(&shown);
    terminal.press(CTRL_C);
    assert_eq!(terminal.end().signal(), Some(SIGINT));
    let all = written(&terminal);
    assert!(all.starts_with("\x1B[?1049h\x1B[?25l\x1B[?7l\x1B[H") && all.ends_with(LEFT), "{all:?}");
    // Each frame is written over the one before: nothing is cleared first.
    assert!(!all.contains("\x1B[2J"), "{all:?}");
    assert_eq!(all.matches("\x1B[J").count(), all.matches("\x1B[H").count());
    assert_eq!(folder.names(), ["run.log"]);
}

// What changes all the time is drawn a few times a second, and what does not change is not drawn.
#[test]
fn few_frames() {
    let folder = led();
    let mut terminal = Terminal::start(folder.program(&["watch", "run.log"]), 30, 100);
    terminal.expect(&folder.output(&["show", "run.log"]));
    let (began, mut stepper, mut value) = (Instant::now(), Stepper::start(&folder), 0);
    while began.elapsed() < Duration::from_millis(1500) {
        assert!(stepper.take(&format!("W 0 {value}")).contains(" entry "));
        value += 1;
        // Else a fast disk fills the log before the time is over.
        std::thread::sleep(Duration::from_millis(2));
    }
    stepper.end();
    terminal.expect(&folder.output(&["show", "run.log"]));
    let seconds = began.elapsed().as_secs_f64();
    let frames = written(&terminal).matches("\x1B[H").count() - 1;
    assert!(frames >= 2 && frames as f64 <= 5.0 * seconds + 2.0, "{frames} frames of {value} steps in {seconds} s");
    terminal.read_for(Duration::from_millis(600));
    assert_eq!(written(&terminal).matches("\x1B[H").count() - 1, frames);
    terminal.press(CTRL_C);
    assert_eq!(terminal.end().signal(), Some(SIGINT));
}

// A name of a process is shown, and not obeyed.
#[test]
fn a_name_that_a_terminal_would_obey() {
    let folder = led();
    let mut program = folder.program(&["step", "run.log", "W 0 7", "F 0"]);
    assert_eq!(ended(program.env("CINDROLF_PROCESS", "a\x1B[2Jb").spawn().unwrap()).status, Some(0));
    let mut terminal = Terminal::start(folder.program(&["watch", "run.log"]), 30, 100);
    let until = Instant::now() + Duration::from_secs(20);
    while !terminal.screen().contains("a\u{fffd}[2Jb") {
        assert!(Instant::now() < until, "{}", terminal.screen());
        terminal.read_for(Duration::from_millis(20));
    }
    terminal.press(CTRL_C);
    terminal.end();
    assert!(!written(&terminal).contains("\x1B[2J"));
}

#[test]
fn a_log_that_is_removed() {
    let folder = led();
    let mut terminal = Terminal::start(folder.program(&["watch", "run.log"]), 30, 100);
    terminal.expect(&folder.output(&["show", "run.log"]));
    let (mut child, mut lines) = printing(&folder);
    for name in folder.names() {
        fs::remove_file(folder.path(&name)).unwrap();
    }
    let said = "cindrolf: run.log: the file was removed or replaced since it was opened";
    assert_eq!(terminal.end().code(), Some(1));
    assert!(written(&terminal).ends_with(&format!("{LEFT}{said}\r\n")), "{:?}", written(&terminal));
    assert_eq!(child.wait().unwrap().code(), Some(1));
    assert!(lines.next().is_none());
    assert_eq!(folder.failure(1, &["watch", "run.log"]), "cindrolf: run.log: there is no such file\n");
}

/// A watch without a terminal, which has begun.
fn printing(folder: &Folder) -> (Child, Lines<BufReader<ChildStdout>>) {
    let mut child = folder.program(&["watch", "run.log"]).spawn().unwrap();
    let mut said = String::new();
    BufReader::new(child.stderr.as_mut().unwrap()).read_line(&mut said).unwrap();
    let rows = folder.checked("run.log").replace("ok, ", "");
    assert_eq!(said, format!("cindrolf: run.log has {rows}; a line follows for each that comes\n"));
    let lines = BufReader::new(child.stdout.take().unwrap()).lines();
    (child, lines)
}

#[test]
fn a_line_for_each_row() {
    for signal in [SIGINT, SIGTERM] {
        let folder = led();
        let (mut child, mut lines) = printing(&folder);
        folder.steps(&["W 0 202", "W 1 7"]);
        store::Store::open(folder.path("run.log")).unwrap().write_scores(0, &[40, 40]).unwrap();
        folder.quiet(&["mark", "run.log", "wash"]);
        folder.quiet(&["revoke", "run.log", "1", "N"]);
        let rows = [
            "W 0 202: entry 1 place 1",
            "W 1 7: ref 7",
            "W 0 of 2 scores: entry 2 place 2",
            "mark wash: ok",
            "rights of 1: BAFLKCPWO: ok",
        ];
        for (number, row) in (6..).zip(rows) {
            let line = lines.next().unwrap().unwrap();
            let begin = format!("{number} {} ", time(&folder, number));
            assert!(line.starts_with(&begin) && line.ends_with(&format!(" {row}")), "{line}: {row}");
            assert!(number == 8 || line == format!("{begin}{} {row}", support::PROCESS), "{line}");
        }
        send(&child, signal);
        assert_eq!(child.wait().unwrap().signal(), Some(signal));
        assert!(lines.next().is_none());
        assert_eq!(folder.names(), ["run.log"]);
    }
}
