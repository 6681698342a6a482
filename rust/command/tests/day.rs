//! The page "A day in the laboratory": runs every command of it, and compares what it prints.

mod support;

use std::fs;
use std::os::unix::fs::symlink;
use support::{Folder, ended, kept};

/// How many lines a record of FASTQ has.
const RECORD: usize = 4;

/// A command of the page, and what is below it.
struct Told {
    command: String,
    printed: String,
}

/// The commands in the indented parts of a page. An empty line belongs to a part where an indented one follows.
fn commands(page: &str) -> Vec<Told> {
    let mut all: Vec<Told> = Vec::new();
    let (mut inside, mut empty) = (false, 0);
    for line in page.lines() {
        match line.strip_prefix("    ") {
            Some(line) => {
                if let Some(command) = line.strip_prefix("$ ") {
                    all.push(Told { command: command.into(), printed: String::new() });
                } else {
                    assert!(inside, "no command is before '{line}'");
                    let told = all.last_mut().unwrap();
                    told.printed += &"\n".repeat(empty);
                    told.printed += line;
                    told.printed += "\n";
                }
                (inside, empty) = (true, 0);
            }
            None if line.is_empty() => empty += 1,
            None => (inside, empty) = (false, 0),
        }
    }
    all
}

/// A folder with the reads, and with the program as `bin/cindrolf`.
fn laboratory() -> Folder {
    let folder = Folder::new();
    fs::create_dir(folder.path("bin")).unwrap();
    symlink(env!("CARGO_BIN_EXE_cindrolf"), folder.path("bin/cindrolf")).unwrap();
    fs::write(folder.path("day.fastq"), kept("examples/day.fastq")).unwrap();
    folder
}

#[test]
fn every_command_prints_what_the_page_says() {
    let (folder, told) = (laboratory(), commands(&kept("docs/DAY.md")));
    for Told { command, printed } in &told {
        let script = format!("PATH=$PWD/bin:$PATH; {{ {command}\n}} 2>&1");
        let end = ended(folder.shell(&script).env_remove("CINDROLF_PROCESS").spawn().unwrap());
        assert_eq!(end.output, *printed, "{command}");
        let refused = printed.starts_with("cindrolf: ");
        assert_eq!(end.status, Some(i32::from(refused)), "{command}");
    }
    // All that the page is about is there.
    let names = ["create", "step", "write", "mark", "advise", "show", "window", "chain", "total"];
    for name in names.into_iter().chain(["archive", "restore", "check", "trace", "steps"]) {
        let is_there = |told: &Told| told.command.contains(&format!("cindrolf {name} "));
        assert!(told.iter().any(is_there), "{name}");
    }
    // The chain value is worked out here, and not by the program.
    let last = folder.last_row("run.db");
    let shown = |told: &Told| told.printed.contains(&format!("\nlast row      {last}\n"));
    assert!(told.iter().any(shown), "{last}");
    assert_eq!(folder.last_row("again.db"), last);
    // The pages are of the rows that are asked for.
    let page = fs::read_to_string(folder.path("noon.html")).unwrap();
    assert!(page.contains("<h2>Rows 9 to 17 of 21</h2>"));
    assert_eq!(
        (9..=17).filter(|row| page.contains(&format!("<li value={row}><a "))).count(),
        page.matches("<li value=").count()
    );
    assert_eq!(page.matches("<li value=").count(), 9);
    let picture = fs::read_to_string(folder.path("left.svg")).unwrap();
    assert!(picture.contains(">Rows 10 to 21 of 21, those of client 0; times are in UTC</text>"));
}

// The sums of the page by another way: with qualities of 10, 20, 30 and 40 they are decimals of few digits.
#[test]
fn the_sums_by_hand() {
    let (page, reads) = (kept("docs/DAY.md"), kept("examples/day.fastq"));
    let lines: Vec<&str> = reads.lines().collect();
    let parts = |quality: char| match quality {
        '+' => 100_000_000_000,
        '5' => 10_000_000_000,
        '?' => 1_000_000_000,
        'I' => 100_000_000,
        other => panic!("another quality: {other}"),
    };
    let records: Vec<_> = lines.chunks(RECORD).collect();
    let values: Vec<u64> = records.iter().map(|record| record[3].chars().map(parts).sum()).collect();
    assert!(records.iter().all(|record| record[1].len() == 24 && record[3].len() == 24));
    let decimal = |parts: u64| format!("{}.{:012}", parts / 1_000_000_000_000, parts % 1_000_000_000_000);
    let (morning, evening) = (values[..4].iter().sum(), values[4..].iter().sum());
    for text in [
        format!("ledger 1 entries 4 sum {}\n", decimal(morning)),
        format!("ledger 2 entries 4 sum {}\n", decimal(evening)),
        format!("total {}\n", decimal(morning + evening)),
        format!("start 4 sum {} client 1 ledger 2 place 0\n", decimal(values[4] + values[5])),
        format!("chain 0:{} 0:{} 0:{} 0:{}\n", values[0], values[1], values[2], values[3]),
    ] {
        assert!(page.contains(&text), "{text}");
    }
    // No stretch before it has more than one error.
    assert!((0..4).all(|start| values[start] + values[start + 1] <= 1_000_000_000_000));
}
