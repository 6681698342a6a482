//! The help of each subcommand: its text, that its example runs, and that the overview lists every subcommand.

mod support;

use std::path::PathBuf;
use support::{Folder, kept};

/// The help of this name, as it is kept.
fn help(name: &str) -> String {
    kept(PathBuf::from("rust/command/help").join(name).with_extension("txt"))
}

/// The subcommands, in the order of the overview.
fn names() -> Vec<String> {
    let overview = help("cindrolf");
    let lines = overview.lines().filter_map(|line| line.strip_prefix("  ").filter(|line| !line.starts_with(' ')));
    lines.map(|line| line.split_once("  ").unwrap().0.to_owned()).collect()
}

/// The lines of the example, which is the last part.
fn example(help: &str) -> Vec<&str> {
    let (_, example) = help.split_once("\nExample:\n\n").expect("an example");
    example.lines().map(|line| line.strip_prefix("    ").expect("a line of the example")).collect()
}

#[test]
fn the_overview_has_every_subcommand() {
    let folder = expected::files::root().join("rust/command/help");
    let files = std::fs::read_dir(folder).unwrap().map(|file| file.unwrap().path());
    let mut files: Vec<_> = files.map(|file| file.file_stem().unwrap().to_str().unwrap().to_owned()).collect();
    let mut names = names();
    assert!(names.len() > 15, "{names:?}");
    names.push("cindrolf".into());
    names.sort();
    files.sort();
    assert_eq!(files, names);
}

#[test]
fn each_is_printed() {
    let folder = Folder::new();
    for option in ["--help", "-h"] {
        assert_eq!(folder.output(&[option]), help("cindrolf"));
        for name in names() {
            assert_eq!(folder.output(&[&name, option]), help(&name), "{name}");
        }
    }
}

#[test]
fn each_has_a_usage_its_options_and_an_example() {
    for name in names() {
        let help = help(&name);
        let usage = help.lines().next().unwrap();
        let takes = usage.strip_prefix(&format!("usage: cindrolf {name}")).expect("its usage");
        for option in takes.split(['[', ']']).filter(|part| part.starts_with('-')) {
            assert!(help.contains(&format!("\n  {option}  ")), "{name}: {option}");
        }
        let example = example(&help);
        assert_eq!(example.len(), 1, "{name}");
        assert!(example[0].starts_with(&format!("cindrolf {name}")), "{name}");
        assert!(help.lines().all(|line| line.chars().count() <= 80), "{name}");
    }
}

// One after the other, since each log is made by the example of create.
#[test]
fn the_examples_run() {
    let folder = Folder::installed();
    std::fs::write(folder.path("run.session"), "1\nB 0\n").unwrap();
    support::old("empty.db", &folder.path("old.db"));
    // Phred 30 is an error probability of a thousandth.
    std::fs::write(folder.path("reads.fastq"), "@a\nA\n+\n?\n").unwrap();
    std::fs::write(folder.path("next.plan"), "W 0 202\n").unwrap();
    for name in names() {
        let help = help(&name);
        let script = format!("PATH=bin; {}", example(&help)[0]);
        // What goes on until Ctrl-C has tests of its own.
        if name == "watch" {
            assert_eq!(script, "PATH=bin; cindrolf watch run.db");
            continue;
        }
        let ended = support::ended(folder.shell(&script).spawn().unwrap());
        assert_eq!((ended.status, ended.errors.as_str()), (Some(0), ""), "{name}");
    }
    assert_eq!(folder.output(&["chain", "copy.db"]), "chain 0:201 0:1000000000 0:202\n");
}

/// The names of the fields of an object: what is in quotes before a colon.
fn fields(json: &str) -> Vec<&str> {
    let parts: Vec<_> = json.split('"').collect();
    parts.windows(2).filter(|pair| pair[1].starts_with(':')).map(|pair| pair[0]).collect()
}

// The help is the only manual of what scripts read: it has the name of every field and of every column.
#[test]
fn the_fields_are_in_the_help() {
    let folder = Folder::new();
    folder.output(&["create", "run.db", "2"]);
    folder.output(&["step", "run.db", "B 0", "F 0", "C 0", "P 0", "W 0 201"]);
    folder.output(&["mark", "run.db", "wash"]);
    std::fs::write(folder.path("next.plan"), "W 0 202\n").unwrap();
    for (args, count) in [
        (&["show", "--json", "run.db"][..], 20),
        (&["total", "--json", "run.db"], 9),
        (&["window", "--json", "run.db", "1", "0.000"], 6),
        (&["advise", "--json", "run.db", "0"], 4),
        (&["mark", "--json", "run.db"], 3),
        (&["check", "--json", "run.db"], 6),
        (&["forecast", "--json", "run.db", "next.plan"], 4),
        (&["plan", "--json", "run.db", "next.plan"], 4),
        (&["chain", "--csv", "run.db"], 7),
        (&["steps", "--csv", "run.db"], 10),
    ] {
        let output = folder.output(args);
        let columns = || output.lines().next().unwrap_or_default().split(',').collect();
        let names = if args[1] == "--csv" { columns() } else { fields(&output) };
        assert!(names.len() >= count, "{args:?}: {names:?}");
        let help = help(args[0]);
        let (_, option) = help.split_once(&format!("\n  {}  ", args[1])).expect("the option");
        let words: Vec<_> = option.split(|letter: char| !letter.is_ascii_lowercase() && letter != '_').collect();
        for name in names {
            assert!(words.contains(&name), "{args:?}: {name}");
        }
    }
}

#[test]
fn an_unknown_subcommand() {
    let folder = Folder::new();
    for (name, closest) in [("sesion", "session"), ("trance", "trace"), ("crate", "create"), ("reboke", "revoke")] {
        let said = folder.failure(2, &[name]);
        let first = format!("cindrolf: there is no subcommand {name}; the closest one is {closest}\n");
        assert!(said.starts_with(&first), "{said}");
    }
}

#[test]
fn the_version_is_the_headers() {
    let header = kept("include/cindrolf.h");
    let (_, number) = header.split_once("#define CINDROLF_VERSION UINT64_C(").unwrap();
    let (number, _) = number.split_once(')').unwrap();
    assert_eq!(Folder::new().output(&["--version"]), format!("cindrolf {number}\n"));
}
