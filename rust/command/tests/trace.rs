//! Pages and pictures of sessions: the messages, the statuses, and a page that is whole or missing.

use std::fs::{self, File};
use std::path::{Path, PathBuf};
use std::process::{Command, Output, Stdio};

/// A folder of its own for a test, which is removed with it.
struct Room(PathBuf);

impl Room {
    fn new(name: &str) -> Self {
        let folder = std::env::temp_dir().join(format!("trace-{}-{name}", std::process::id()));
        fs::create_dir(&folder).unwrap();
        fs::write(folder.join("a.session"), "1\nB 0\n").unwrap();
        Room(folder)
    }

    fn run(&self, arguments: &[&str]) -> Output {
        self.command(arguments).output().unwrap()
    }

    fn command(&self, arguments: &[&str]) -> Command {
        let mut command = Command::new(env!("CARGO_BIN_EXE_cindrolf"));
        command.current_dir(&self.0).arg("trace").args(arguments).stderr(Stdio::piped());
        command
    }

    fn files(&self) -> Vec<String> {
        let mut names: Vec<_> =
            fs::read_dir(&self.0).unwrap().map(|entry| entry.unwrap().file_name().into_string().unwrap()).collect();
        names.sort();
        names
    }
}

impl Drop for Room {
    fn drop(&mut self) {
        let _ = fs::remove_dir_all(&self.0);
    }
}

fn said(output: &Output, status: i32, words: &str) {
    let errors = String::from_utf8_lossy(&output.stderr);
    assert_eq!(output.status.code(), Some(status), "{errors}");
    assert!(errors.contains(words), "{errors}");
}

#[test]
fn a_page_and_a_picture() {
    let room = Room::new("page");
    let printed = room.run(&["a.session"]);
    said(&printed, 0, "");
    assert!(printed.stdout.starts_with(b"<!DOCTYPE html>") && printed.stdout.ends_with(b"</html>\n"));
    said(&room.run(&["--svg", "-o", "a.svg", "a.session"]), 0, "");
    assert!(fs::read_to_string(room.0.join("a.svg")).unwrap().ends_with("</svg>\n"));
    assert_eq!(room.files(), ["a.session", "a.svg"]);
}

#[test]
fn what_cannot_be_read() {
    let room = Room::new("read");
    said(&room.run(&["nowhere"]), 2, "there is no file nowhere");
    said(&room.run(&["."]), 2, ". is a folder");
    said(&room.run(&[]), 2, "one FILE, not 0");
    said(&room.run(&["--png", "a.session"]), 2, "there is no option --png");
    assert_eq!(room.files(), ["a.session"]);
}

#[test]
fn what_cannot_be_written() {
    let room = Room::new("write");
    said(&room.run(&["-o", "nowhere/page", "a.session"]), 2, "there is no folder nowhere for nowhere/page");
    said(&room.run(&["-o", "a.session/page", "a.session"]), 2, "there is no folder a.session");
    said(&room.run(&["-o", ".", "a.session"]), 2, ". is a folder");
    said(&room.run(&["-o", "", "a.session"]), 2, "-o wants a file after it");
    said(&room.run(&["-o", "/dev/full", "a.session"]), 1, "it is no regular file");
    let full = File::options().write(true).open("/dev/full").unwrap();
    let printed = room.command(&["a.session"]).stdout(full).output().unwrap();
    said(&printed, 1, "standard output: No space left");
    assert_eq!(room.files(), ["a.session"]);
}

// A page that is there is replaced as a whole, also through a link, which stays.
#[test]
fn a_page_is_replaced() {
    let room = Room::new("replaced");
    let old = room.0.join("old.html");
    fs::write(&old, "old").unwrap();
    std::os::unix::fs::symlink("old.html", room.0.join("link.html")).unwrap();
    let held = File::open(&old).unwrap();
    said(&room.run(&["-o", "link.html", "a.session"]), 0, "");
    assert!(fs::symlink_metadata(room.0.join("link.html")).unwrap().is_symlink());
    assert!(fs::read_to_string(&old).unwrap().ends_with("</html>\n"));
    // Who has the old one open goes on reading the old one.
    assert_eq!(std::io::read_to_string(held).unwrap(), "old");
    assert_eq!(room.files(), ["a.session", "link.html", "old.html"]);
}

// What is too long is not read to its end: this file has none.
#[test]
fn an_endless_file_is_too_long() {
    assert!(Path::new("/dev/zero").exists());
    let room = Room::new("endless");
    let printed = room.run(&["/dev/zero"]);
    said(&printed, 0, "");
    assert!(String::from_utf8_lossy(&printed.stdout).contains("too long"));
}
