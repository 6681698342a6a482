//! Copies of a log: their modes and names, and which file is blamed if a copy fails.

mod support;

use std::fs::{self, Permissions};
use std::os::unix::fs::{MetadataExt, PermissionsExt};
use std::time::Duration;
use support::{Folder, SIGINT, ended, send};

fn five_rows() -> Folder {
    let folder = Folder::with_log(1);
    folder.steps(&["B 0", "F 0", "C 0", "P 0", "W 0 201"]);
    folder
}

// What others may not read, they may not read in a copy.
#[test]
fn the_mode_is_kept() {
    let folder = five_rows();
    for (mode, mask) in [(0o600, "022"), (0o640, "000"), (0o644, "077"), (0o660, "022")] {
        fs::set_permissions(folder.path("run.log"), Permissions::from_mode(mode)).unwrap();
        let copy = format!("copy{mode:o}.log");
        let script = format!("umask {mask}; exec \"$0\" copy run.log {copy}");
        let end = ended(folder.shell(&script).spawn().unwrap());
        assert_eq!((end.status, end.errors.as_str()), (Some(0), ""));
        let file = fs::metadata(folder.path(&copy)).unwrap();
        assert_eq!((file.mode() & 0o7777, file.nlink()), (mode, 1), "{mode:o} with umask {mask}");
        assert_eq!(folder.checked(&copy), "ok, 5 rows");
    }
}

// A process of the same number was killed, and left what it had begun.
#[test]
fn what_was_left_of_another() {
    for left in ["", "no database\n", "SQLite format 3"] {
        let folder = five_rows();
        let script = format!("printf '{left}' >copy.log.$$.part; echo $$; exec \"$0\" copy run.log copy.log");
        let end = ended(folder.shell(&script).spawn().unwrap());
        assert_eq!((end.status, end.errors.as_str()), (Some(0), ""));
        assert_eq!(folder.checked("copy.log"), "ok, 5 rows");
        let part = format!("copy.log.{}.part", end.output.trim_end());
        assert_eq!(folder.names(), ["copy.log", &part, "run.log"]);
        assert_eq!(fs::read_to_string(folder.path(&part)).unwrap(), left);
    }
}

// SQLite takes such a name for more than a name.
#[test]
fn names_that_begin_with_file() {
    let folder = five_rows();
    for name in ["file:copy.log", "file:copy.log?mode=memory", ":memory:", "-copy.log"] {
        folder.quiet(&["copy", "--", "run.log", name]);
        assert_eq!(folder.names().len(), 2, "{:?}", folder.names());
        assert_eq!(folder.output(&["check", "--", name]).lines().next(), Some("ok, 5 rows"));
        fs::remove_file(folder.path(name)).unwrap();
    }
}

// The copy finds no room, and the log is not at fault.
#[test]
fn no_room_for_the_copy() {
    let folder = five_rows();
    // The log outgrows the limit, 40 KiB, and the file that SQLite keeps beside it does not.
    let lines: String = (0..1000).map(|value| format!("W 0 {value}\n")).collect();
    assert_eq!(folder.run_on(&["step", "run.log"], lines.as_bytes()).status, Some(0));
    let script = "trap '' XFSZ; ulimit -f 80; exec \"$0\" copy run.log copy.log";
    let end = ended(folder.shell(script).spawn().unwrap());
    assert_eq!(end.status, Some(1));
    assert!(end.errors.starts_with("cindrolf: copy.log: the disk "), "{}", end.errors);
    assert_eq!(folder.names(), ["run.log"]);
    assert_eq!(folder.checked("run.log"), "ok, 1005 rows");
}

// Ctrl-C at any moment leaves a whole copy or none, and nothing else.
#[test]
fn a_signal() {
    let folder = five_rows();
    let lines: String = (0..2000).map(|value| format!("W 0 {value}\n")).collect();
    assert_eq!(folder.run_on(&["step", "run.log"], lines.as_bytes()).status, Some(0));
    for round in 0..30 {
        let child = folder.program(&["copy", "run.log", "copy.log"]).spawn().unwrap();
        std::thread::sleep(Duration::from_micros(1000 * round));
        send(&child, SIGINT);
        ended(child);
        if folder.path("copy.log").exists() {
            assert_eq!(folder.checked("copy.log"), "ok, 2005 rows");
            fs::remove_file(folder.path("copy.log")).unwrap();
        }
        assert!(folder.names().iter().all(|name| !name.ends_with(".part")), "round {round}: {:?}", folder.names());
    }
}

// SQLite would make the file x of these.
#[test]
fn names_of_folders() {
    let folder = five_rows();
    for name in ["x/", "x/.", "x//"] {
        let why = format!("cindrolf: {name}: its name is that of a folder\n");
        assert_eq!(folder.failure(1, &["create", name, "2"]), why);
        assert_eq!(folder.failure(1, &["copy", "run.log", name]), why);
    }
    assert_eq!(folder.names(), ["run.log"]);
}
