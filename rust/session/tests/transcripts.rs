//! Sessions taken by this crate on the proved log, compared with what the model prints for them.

use cindrolf::{ListPlace, Log, client_of, value_of};
use expected::files::{input, input_names, root};
use model::random::Random;
use session::{Session, exact, reply, total_lines};
use std::fmt::Write;

/// What the session program and that of the run total print.
fn printed(input: &[u8]) -> (String, String) {
    let session = match Session::read(input) {
        Ok(session) => session,
        Err(error) => return (format!("{error}\n"), format!("{error}\n")),
    };
    let mut log = Log::fresh(session.client_count).unwrap();
    let mut transcript = String::new();
    for (place, line) in (1..).zip(&session.lines) {
        let taken = line.step().map(|(client, step)| reply(log.take(client, step)).unwrap());
        let _ = writeln!(transcript, "{place} {}", taken.as_deref().unwrap_or("bad line"));
    }
    let mut output = [0; cindrolf::ENTRY_WORDS];
    let count = log.read_chain(&mut output).unwrap();
    transcript += "chain";
    for &word in &output[..count] {
        let _ = write!(transcript, " {}:{}", client_of(word), value_of(word));
    }
    (transcript + "\n", totals(&log))
}

fn totals(log: &Log) -> String {
    let mut text = String::new();
    for ledger in (1..).map_while(|place| log.ledger_at(ListPlace(place)).ok()) {
        let summed = log.ledger_sum(ledger).unwrap();
        let _ = writeln!(text, "ledger {} entries {} sum {}", ledger.0, summed.entries, exact(summed.sum));
    }
    let [total, rounded] = total_lines(log.run_total().unwrap());
    text + &format!("{total}\n{rounded}\n")
}

fn compare(input: &[u8]) {
    let model = (expected::session::transcript(input), expected::total::output(input));
    assert_eq!(printed(input), model, "{}", String::from_utf8_lossy(input));
}

#[test]
fn inputs_and_examples() {
    for name in input_names().unwrap() {
        compare(&input(&name).unwrap());
    }
    let mut examples = 0;
    for file in std::fs::read_dir(root().join("examples")).unwrap() {
        let file = file.unwrap().path();
        if file.extension().is_some_and(|extension| extension == "session") {
            compare(&std::fs::read(file).unwrap());
            examples += 1;
        }
    }
    assert!(examples > 0);
}

// One to three bytes changed, added or taken away, most of them to bytes that a session has.
#[test]
fn changed_bytes() {
    let mut random = Random::new(1);
    let names = input_names().unwrap();
    for _ in 0..2_000 {
        let mut text = input(&names[random.below(names.len() as u64) as usize]).unwrap();
        for _ in 0..random.between(1, 3) {
            let at = random.below(text.len() as u64 + 1) as usize;
            let byte = if random.chance(90) { random.pick(b"NBAFLKCPWO 0123456789\n\r") } else { random.word() as u8 };
            match random.below(3) {
                0 => text.insert(at, byte),
                1 if at < text.len() => text[at] = byte,
                _ => drop(text.drain(at.saturating_sub(1)..at)),
            }
        }
        compare(&text);
    }
}
