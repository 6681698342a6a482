//! Every command but step, on logs whose state was worked out by hand from the reference.

mod support;

use support::Folder;

/// Client 0 leads with two reads in ledger 1; client 1 is named and has fenced that ledger.
const FENCED: [&str; 10] =
    ["B 0", "F 0", "C 0", "P 0", "W 0 1500000000000", "W 0 250000000000", "N 1", "B 1", "F 1", "L 1"];

/// Client 1 closes ledger 1 and creates ledger 2; client 2 lists ledger 3 before it, so that client 1 is behind.
const RACED: [&str; 10] = ["K 1", "C 1", "N 2", "B 2", "F 2", "L 2", "C 2", "P 2", "P 1", "W 2 9"];

fn fenced() -> Folder {
    let folder = Folder::new();
    folder.quiet(&["create", "--small", "run.log", "3"]);
    let replies = folder.steps(&FENCED);
    assert!(replies.ends_with("6 entry 1 place 1\n7 ok\n8 ok\n9 ok\n10 ok\n"), "{replies}");
    folder
}

fn raced() -> Folder {
    let folder = fenced();
    let replies = folder.steps(&RACED);
    assert!(replies.ends_with("6 was\n7 ok\n8 ok\n9 behind\n10 entry 2 place 0\n"), "{replies}");
    folder
}

#[test]
fn show_a_fresh_log() {
    let folder = Folder::with_log(2);
    let shown = "\
file          run.log
clients       2
entries       0 of 4096
ledgers       0 of 255 created, 0 listed
named leader  client 0
last row      ROW

client  named  leads  stage    ledger  entries  lacks rights  last process
     0  yes    -      waiting       -        0  -             -
     1  -      -      waiting       -        0  -             -
";
    assert_eq!(folder.output(&["show", "run.log"]), shown.replace("ROW", &folder.last_row("run.log")));
}

#[test]
fn show_a_handover() {
    let shown = "\
file          run.log
clients       3
entries       2 of 512
ledgers       1 of 255 created, 1 listed
named leader  client 1
last row      ROW

client  named  leads  stage      ledger  entries  lacks rights  last process
     0  -      yes    writing         1        2  -             lab1 cindrolf[812]
     1  yes    yes    finishing       1        0  -             lab1 cindrolf[812]
     2  -      -      waiting         -        0  -             -

ledger  state               entries             sum
     1  fenced, recovering        2  1.750000000000
";
    let folder = fenced();
    assert_eq!(folder.output(&["show", "run.log"]), shown.replace("ROW", &folder.last_row("run.log")));
}

#[test]
fn show_all_there_is() {
    let folder = raced();
    folder.quiet(&["mark", "run.log", "wash"]);
    folder.quiet(&["revoke", "run.log", "0", "W"]);
    folder.quiet(&["revoke", "run.log", "0", "N"]);
    folder.quiet(&["revoke", "run.log", "2", "O"]);
    let shown = "\
file          run.log
clients       3
entries       3 of 512
ledgers       3 of 255 created, 2 listed
named leader  client 2
last row      ROW

client  named  leads  stage    ledger  entries  lacks rights  last process
     0  -      yes    writing       1        2  N W           lab1 cindrolf[812]
     1  -      -      waiting       2        0  -             lab1 cindrolf[812]
     2  yes    yes    writing       3        1  O             lab1 cindrolf[812]

ledger  state   entries             sum
     1  closed        2  1.750000000000
     3  open          1  0.000000000009

created and not listed: 2

mark  entries
wash        3
";
    assert_eq!(folder.output(&["show", "run.log"]), shown.replace("ROW", &folder.last_row("run.log")));
}

// Client 0 closes its own ledger 254 times, and has all 255 then.
#[test]
fn show_every_ledger() {
    let folder = Folder::with_log(1);
    let mut lines = String::from("B 0\nF 0\n");
    for _ in 0..255 {
        lines += "C 0\nP 0\nO 0\n";
    }
    let ended = folder.run_on(&["step", "run.log"], (lines + "C 0\n").as_bytes());
    assert!(ended.output.ends_with("\n767 ok\n768 ref 10\n"), "{}", ended.output);
    let shown = folder.output(&["show", "run.log"]);
    assert!(shown.contains("\nledgers       255 of 255 created, 255 listed\n"), "{shown}");
    assert!(shown.ends_with("\n   255  closed        0  0.000000000000\n"), "{shown}");
    assert_eq!(shown.lines().filter(|line| line.ends_with("closed        0  0.000000000000")).count(), 255);
}

#[test]
fn chain_total_and_marks() {
    let folder = fenced();
    folder.quiet(&["mark", "run.log", "fenced"]);
    folder.steps(&RACED);
    folder.quiet(&["mark", "run.log", "größe"]);
    assert_eq!(folder.output(&["mark", "run.log"]), "mark fenced entries 2\nmark größe entries 3\n");
    assert_eq!(folder.output(&["chain", "run.log"]), "chain 0:1500000000000 0:250000000000 2:9\n");
    let at_mark = "chain 0:1500000000000 0:250000000000\n";
    assert_eq!(folder.output(&["chain", "--at", "fenced", "run.log"]), at_mark);
    let total = "ledger 1 entries 2 sum 1.750000000000\nledger 3 entries 1 sum 0.000000000009\n\
                 total 1.750000000009\nrounded 1.750\n";
    assert_eq!(folder.output(&["total", "run.log"]), total);
    folder.quiet(&["mark", "--drop", "run.log", "fenced"]);
    assert_eq!(folder.output(&["mark", "run.log"]), "mark größe entries 3\n");
    let taken = "cindrolf: run.log: the name of the mark is taken or all zero (refusal 21)\n";
    assert_eq!(folder.failure(1, &["mark", "run.log", "größe"]), taken);
    let not_kept = "cindrolf: run.log: no mark of this name is kept (refusal 23)\n";
    assert_eq!(folder.failure(1, &["mark", "--drop", "run.log", "fenced"]), not_kept);
    assert_eq!(folder.failure(1, &["chain", "--at", "fenced", "run.log"]), not_kept);
}

// Each named client is told the next of the steps above, and the others what the reference says.
#[test]
fn advice() {
    let folder = Folder::with_log(2);
    let advised = |client| folder.output(&["advise", "run.log", client]);
    let names = [("B 0", "B become\n"), ("F 0", "F fetch\n"), ("C 0", "C create\n"), ("P 0", "P append\n")];
    for (line, advice) in names {
        assert_eq!((advised("0").as_str(), advised("1").as_str()), (advice, "none: client 0 is named\n"));
        assert_eq!(folder.steps(&[line]), "1 ok\n");
    }
    assert_eq!(advised("0"), "W write\n");
    folder.steps(&["N 1", "B 1", "F 1"]);
    assert_eq!((advised("0").as_str(), advised("1").as_str()), ("A abdicate\n", "L close last\n"));
    folder.steps(&["L 1"]);
    assert_eq!(advised("1"), "K finish\n");
    // Client 0 is named again, and still writes to its ledger, which is fenced.
    folder.steps(&["N 0"]);
    assert_eq!(advised("0"), "O close own\n");
    let unknown = "cindrolf: run.log: the client number is not below the client count (refusal 3)\n";
    assert_eq!(folder.failure(1, &["advise", "run.log", "2"]), unknown);
}

#[test]
fn rights() {
    let folder = Folder::with_log(2);
    folder.quiet(&["revoke", "run.log", "0", "B"]);
    assert_eq!(folder.steps(&["B 0"]), "1 ref 24\n");
    folder.quiet(&["grant", "run.log", "0", "B"]);
    assert_eq!(folder.steps(&["B 0"]), "1 ok\n");
    // Each letter is the right to its own step, and to no other.
    for letter in ["N", "B", "A", "F", "L", "K", "C", "P", "W", "O"] {
        folder.quiet(&["revoke", "run.log", "1", letter]);
        for line in ["N 1", "B 1", "A 1", "F 1", "L 1", "K 1", "C 1", "P 1", "W 1 7", "O 1"] {
            let refused = folder.steps(&[line]) == "1 ref 24\n";
            assert_eq!(refused, line.starts_with(letter), "{line} without {letter}");
        }
        folder.quiet(&["grant", "run.log", "1", letter]);
    }
    // Refusal 3, as a step of such a client; 16 is no client of any log.
    let unknown = "cindrolf: run.log: the client number is not below the client count (refusal 3)\n";
    for (command, client) in [("grant", "2"), ("revoke", "2"), ("grant", "15"), ("revoke", "16"), ("grant", "255")] {
        assert_eq!(folder.failure(1, &[command, "run.log", client, "N"]), unknown, "{command} {client}");
    }
}

// Of the twenty steps of the race all are accepted, and each is a row.
#[test]
fn check_and_copy() {
    let folder = Folder::with_log(3);
    assert_eq!(folder.checked("run.log"), "ok, 0 rows");
    folder.steps(&["B 0"]);
    assert_eq!(folder.checked("run.log"), "ok, 1 row");
    let folder = raced();
    assert_eq!(folder.checked("run.log"), "ok, 20 rows");
    folder.quiet(&["copy", "run.log", "copy.log"]);
    folder.steps(&["W 2 10"]);
    assert_eq!(folder.checked("copy.log"), "ok, 20 rows");
    assert_eq!(folder.output(&["chain", "copy.log"]), "chain 0:1500000000000 0:250000000000 2:9\n");
    // A copy goes on as a log of its own.
    assert_eq!(folder.output(&["step", "copy.log", "W 2 11"]), "1 entry 3 place 1\n");
    assert_eq!(folder.output(&["chain", "run.log"]), "chain 0:1500000000000 0:250000000000 2:9 2:10\n");
    let exists = "cindrolf: copy.log: there is a file of this name already\n";
    assert_eq!(folder.failure(1, &["copy", "run.log", "copy.log"]), exists);
    let nowhere = "cindrolf: nowhere/copy.log: there is no folder nowhere\n";
    assert_eq!(folder.failure(1, &["copy", "run.log", "nowhere/copy.log"]), nowhere);
}

/// The words of a command as a shell takes them apart, with double quotes only.
fn words(command: &str) -> Vec<String> {
    let parts = command.split('"').enumerate();
    let words = parts.flat_map(|(number, part)| match number % 2 {
        0 => part.split_whitespace().map(String::from).collect(),
        _ => vec![part.to_owned()],
    });
    words.collect()
}

// Each command of the README's table prints what is beside it, and the last one the tables below it.
#[test]
fn the_readme() {
    let folder = Folder::new();
    let readme = support::kept("README.md");
    let section = readme.split("\n## ").find(|section| section.starts_with("One log, many processes\n")).unwrap();
    let rows: Vec<_> = section.lines().filter(|line| line.starts_with("| `cindrolf ")).collect();
    assert!(rows.len() >= 6, "{}", rows.len());
    for row in rows {
        let mut quoted = row.split('`').skip(1).step_by(2);
        let words = words(quoted.next().unwrap().strip_prefix("cindrolf ").unwrap());
        let output = folder.output(&words.iter().map(String::as_str).collect::<Vec<_>>());
        let lines: Vec<_> = output.lines().collect();
        assert!(quoted.clone().all(|line| lines.contains(&line)), "{row}: {output}");
        assert_eq!(quoted.last(), lines.last().copied(), "{row}");
    }
    let (_, tables) = section.split_once("`cindrolf show run.db`:\n\n").unwrap();
    let tables = tables.lines().take_while(|line| line.is_empty() || line.starts_with("    "));
    let tables: String = tables.map(|line| format!("{}\n", line.strip_prefix("    ").unwrap_or(""))).collect();
    assert_eq!(folder.output(&["show", "run.db"]), format!("{}\n", tables.trim_end()));
}
