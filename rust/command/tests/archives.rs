//! A run in an archive: through files, through pipes, and with errors.

mod support;

use std::fs;
use support::{Folder, ended};

fn five_rows() -> Folder {
    let folder = Folder::with_log(2);
    folder.steps(&["B 0", "F 0", "C 0", "P 0", "W 0 201"]);
    folder.quiet(&["mark", "run.log", "wash"]);
    folder.quiet(&["revoke", "run.log", "1", "N"]);
    folder
}

// What both logs print, but for their names.
fn printed(folder: &Folder, log: &str) -> Vec<String> {
    let commands = [vec!["show", log], vec!["total", log], vec!["chain", log], vec!["mark", log], vec!["check", log]];
    commands.iter().map(|args| folder.output(args).replace(log, "LOG")).collect()
}

#[test]
fn there_and_back() {
    let folder = five_rows();
    folder.quiet(&["archive", "run.log", "run.archive"]);
    folder.quiet(&["restore", "run.archive", "again.log"]);
    assert_eq!(printed(&folder, "again.log"), printed(&folder, "run.log"));
    assert_eq!(folder.names(), ["again.log", "run.archive", "run.log"]);
    // As a file whose name is that of standard output.
    folder.quiet(&["archive", "run.log", "./-"]);
    assert_eq!(fs::read(folder.path("-")).unwrap(), fs::read(folder.path("run.archive")).unwrap());
}

#[test]
fn through_a_pipe() {
    let folder = five_rows();
    let pipe = "\"$0\" archive run.log - | gzip | gzip -d | \"$0\" restore - again.log";
    let end = ended(folder.shell(pipe).spawn().unwrap());
    assert_eq!((end.status, end.errors.as_str(), end.output.as_str()), (Some(0), "", ""));
    assert_eq!(printed(&folder, "again.log"), printed(&folder, "run.log"));
}

#[test]
fn what_goes_wrong() {
    let folder = five_rows();
    folder.quiet(&["archive", "run.log", "run.archive"]);
    let mut bytes = fs::read(folder.path("run.archive")).unwrap();
    bytes[40] ^= 1;
    fs::write(folder.path("changed"), &bytes).unwrap();
    fs::write(folder.path("cut"), &bytes[..bytes.len() / 2]).unwrap();
    let names = folder.names();
    for (args, status, wanted) in [
        (vec!["restore", "changed", "new.log"], 1, "changed: it is no whole archive: a byte of it was changed"),
        (vec!["restore", "cut", "new.log"], 1, "cut: it is no whole archive: a byte of it was changed, or it was cut"),
        (
            vec!["restore", "run.log", "new.log"],
            1,
            "run.log: it is no whole archive: it does not begin as an archive does",
        ),
        (vec!["restore", "nowhere", "new.log"], 1, "nowhere: No such file or directory"),
        (vec!["restore", "run.archive", "run.log"], 1, "run.log: there is a file of this name already"),
        (vec!["restore", "run.archive", "no/new.log"], 1, "no/new.log: there is no folder no"),
        (vec!["archive", "run.log", "run.archive"], 1, "run.archive: there is a file of this name already"),
        (vec!["archive", "run.archive", "new"], 1, "run.archive: it is no run log of this version"),
        (vec!["archive", "nowhere", "new"], 1, "nowhere: there is no such file"),
        (vec!["archive", "run.log", "no/new"], 1, "no/new: there is no folder no"),
        (vec!["archive", "run.log"], 2, "ARCHIVE is missing"),
        (vec!["restore", "run.archive"], 2, "TO is missing"),
    ] {
        let end = folder.run(&args);
        assert_eq!(end.status, Some(status), "{args:?}");
        assert!(end.errors.starts_with(&format!("cindrolf: {wanted}")), "{args:?}: {}", end.errors);
        assert_eq!(end.output, "");
    }
    assert_eq!(folder.names(), names);
    assert_eq!(folder.checked("run.log"), "ok, 7 rows");
}
