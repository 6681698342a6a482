//! Plans from files: what a run adds, compared with its forecast and with the same steps taken one by one.

mod support;

use model::random::Random;
use std::fs;
use std::time::Duration;
use store::database::{Database, Mode};
use support::Folder;

fn requests(folder: &Folder) -> Option<i64> {
    let database = Database::open(&folder.path("run.log"), Mode::Existing, Duration::from_secs(10)).unwrap();
    database.number("SELECT count(DISTINCT request) FROM journal").unwrap()
}

// Two creates, of which one is refused; three writes, of which one is; and client 7, whom the log does not have.
#[test]
fn by_hand() {
    let folder = Folder::with_log(2);
    let plan = "B 0\nF 0\nC 0\nC 0\nP 0\nW 0 201\nW 0 4503599627370495\nW 7 1\nN 1\n";
    fs::write(folder.path("a.plan"), plan).unwrap();
    let counted = "steps 9 entries 2 ledgers 1 refusals 2\n";
    assert_eq!(folder.output(&["forecast", "run.log", "a.plan"]), counted);
    assert_eq!(folder.checked("run.log"), "ok, 0 rows");
    for (budget, line) in [
        ("0", "steps 0 entries 0 ledgers 0 refusals 0\n"),
        ("3", "steps 3 entries 0 ledgers 1 refusals 0\n"),
        ("6", "steps 6 entries 1 ledgers 1 refusals 1\n"),
        ("18446744073709551615", counted),
    ] {
        assert_eq!(folder.output(&["forecast", "--budget", budget, "run.log", "a.plan"]), line);
    }
    assert_eq!(
        folder.output(&["plan", "run.log", "a.plan", "--budget", "6"]),
        "steps 6 entries 1 ledgers 1 refusals 1\n"
    );
    assert_eq!(folder.output(&["chain", "run.log"]), "chain 0:201\n");
    assert_eq!((folder.checked("run.log").as_str(), requests(&folder)), ("ok, 6 rows", Some(1)));
    let end = folder.run_on(&["plan", "run.log", "-"], b"W 0 7\nN 1\n");
    assert_eq!((end.status, end.output.as_str()), (Some(0), "steps 2 entries 1 ledgers 0 refusals 0\n"));
    assert_eq!(requests(&folder), Some(2));
    fs::write(folder.path("empty.plan"), "").unwrap();
    assert_eq!(folder.output(&["plan", "run.log", "empty.plan"]), "steps 0 entries 0 ledgers 0 refusals 0\n");
    // Where every step is refused, nothing is stored.
    fs::write(folder.path("refused.plan"), "B 0\nB 7\n").unwrap();
    assert_eq!(folder.output(&["plan", "run.log", "refused.plan"]), "steps 2 entries 0 ledgers 0 refusals 2\n");
    assert_eq!(folder.checked("run.log"), "ok, 8 rows");
}

#[test]
fn lines_that_are_none() {
    let folder = Folder::with_log(2);
    let no_step =
        "it is no step: one of N B A F L K C P W O, a client, and for a write a value, with one space between";
    for (plan, line, why) in [
        ("B 0\nW 0 4503599627370496\n", 2, "a value is 0 to 4503599627370495"),
        ("W 0 18446744073709551615\n", 1, "a value is 0 to 4503599627370495"),
        ("B 0\nF 0\nB 256\n", 3, "a client is 0 to 255"),
        ("W 256 7\n", 1, "a client is 0 to 255"),
        ("2\nB 0\n", 1, no_step),
        ("B 0\n\nF 0\n", 2, no_step),
        ("B 0\nX 0\n", 2, no_step),
        ("W 0\n", 1, no_step),
        ("B 0 \n", 1, no_step),
        ("B 0\r\n", 1, no_step),
        ("B 0\nF 0", 2, "it lacks its end: the plan was cut"),
    ] {
        fs::write(folder.path("a.plan"), plan).unwrap();
        // Also where the budget ends before it.
        for args in [
            &["plan", "run.log", "a.plan"][..],
            &["forecast", "run.log", "a.plan"],
            &["plan", "--budget", "0", "run.log", "a.plan"],
        ] {
            let said = format!("cindrolf: a.plan: line {line}: {why}; no step is taken\n");
            assert_eq!(folder.failure(1, args), said, "{plan:?}");
        }
    }
    assert_eq!(folder.failure(2, &["plan", "run.log", "nowhere"]), "cindrolf: there is no file nowhere\n");
    assert_eq!(folder.failure(2, &["plan", "run.log", "."]), "cindrolf: . is a folder\n");
    let said = "cindrolf: /dev/zero: it has more than 27000000 bytes; no step is taken\n";
    assert_eq!(folder.failure(1, &["forecast", "run.log", "/dev/zero"]), said);
    assert_eq!(folder.checked("run.log"), "ok, 0 rows");
}

/// Steps of four clients, of whom the log has three: handovers with some writes, and among them any other step.
fn plan(random: &mut Random, length: u64) -> String {
    let mut lines = Vec::new();
    while lines.len() < length as usize {
        let client = random.pick(&[0, 1, 2, 2, 3]);
        if random.chance(40) {
            lines.push(format!("{} {client}", random.pick(&['N', 'B', 'A', 'F', 'L', 'K', 'C', 'P', 'O'])));
            continue;
        }
        lines.extend("NBFLKCP".chars().map(|letter| format!("{letter} {client}")));
        lines.extend((0..random.below(5)).map(|_| format!("W {client} {}", random.word() >> 12)));
    }
    lines.iter().take(length as usize).map(|line| format!("{line}\n")).collect()
}

/// What the replies of single steps come to.
fn counted(plan: &str, replies: &str) -> String {
    let replies = replies.lines().map(|reply| reply.split_once(' ').unwrap().1);
    let both: Vec<_> = plan.lines().zip(replies).collect();
    let count = |is: fn(&(&str, &str)) -> bool| both.iter().filter(|both| is(both)).count();
    let (entries, refusals) =
        (count(|(_, reply)| reply.starts_with("entry ")), count(|(_, reply)| reply.starts_with("ref ")));
    let ledgers = count(|(line, reply)| line.starts_with('C') && *reply == "ok");
    format!("steps {} entries {entries} ledgers {ledgers} refusals {refusals}\n", both.len())
}

// Each plan is forecast, run, and taken singly on a copy: the numbers are the same, and so are the logs.
#[test]
fn random_plans() {
    let (folder, mut random) = (Folder::new(), Random::new(2));
    folder.quiet(&["create", "--small", "run.log", "3"]);
    folder.steps(&["B 0", "F 0", "C 0", "P 0"]);
    let mut sums = [0; 2];
    for round in 0..40 {
        let length = random.between(1, 60);
        let text = plan(&mut random, length);
        fs::write(folder.path("a.plan"), &text).unwrap();
        let budget = random.between(0, 70);
        let budgeted: String = text.lines().take(budget as usize).map(|line| format!("{line}\n")).collect();
        let budget = budget.to_string();
        let copy = format!("{round}.log");
        folder.quiet(&["copy", "run.log", &copy]);
        let last = folder.last_row("run.log");
        let forecast = folder.output(&["forecast", "run.log", "a.plan", "--budget", &budget]);
        assert_eq!(folder.last_row("run.log"), last, "a forecast changes nothing");
        assert_eq!(folder.output(&["plan", "run.log", "a.plan", "--budget", &budget]), forecast, "{text}");
        let singly = folder.run_on(&["step", &copy], budgeted.as_bytes());
        assert_eq!(counted(&budgeted, &singly.output), forecast, "{text}");
        assert_eq!(folder.output(&["chain", "run.log"]), folder.output(&["chain", &copy]));
        let numbers: Vec<usize> = forecast.split_whitespace().filter_map(|word| word.parse().ok()).collect();
        (sums[0], sums[1]) = (sums[0] + numbers[1], sums[1] + numbers[3]);
        if round % 10 == 5 {
            let (client, letter) = (random.below(3).to_string(), random.pick(&["N", "W", "C"]));
            folder.quiet(&["revoke", "run.log", &client, letter]);
        }
    }
    assert!(sums[0] > 20 && sums[1] > 200, "{sums:?}");
}
