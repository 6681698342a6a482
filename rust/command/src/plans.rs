//! Plans from files: run as one request, or forecast.

use crate::failure::Failure;
use crate::json::Json;
use crate::{closed, given};
use cindrolf::{Answer, CLIENT_NUMBER_LIMIT, Forecast, Kind, StepWord, VALUE_LIMIT};
use limits::PLAN_LIMIT;
use session::Line;
use std::io::Read;
use std::path::{Path, PathBuf};
use store::{Asked, Change, Store, Told};

/// A plan on a log.
#[derive(Debug, PartialEq, Eq)]
pub struct Plan {
    pub log: PathBuf,
    /// The file with its lines; `-` is standard input.
    pub lines: PathBuf,
    /// The most steps that are taken of it.
    pub budget: u64,
    pub as_json: bool,
}

/// Runs it as one request, and says what its steps have added.
pub fn run(plan: &Plan) -> Result<String, Failure> {
    let words = taken(plan)?;
    let mut store = crate::open(&plan.log)?;
    let asked = words.iter().filter_map(|word| Some(Change::Step(word.client(), word.step()?).into()));
    let asked: Vec<Asked> = asked.collect();
    let told = store.take_all(&asked).map_err(|error| Failure::of_request(&plan.log, "the plan", error))?;
    Ok(text(plan, words.len(), added(&asked, &told)))
}

/// Says what a run would add now, and changes nothing.
pub fn forecast(plan: &Plan) -> Result<String, Failure> {
    let words = taken(plan)?;
    let mut store: Store = crate::open(&plan.log)?;
    let latest = store.latest().map_err(|error| Failure::of_reading(&plan.log, error))?;
    Ok(text(plan, words.len(), latest.forecast(&words, words.len() as u64)))
}

/// What the steps have added, by their answers.
fn added(asked: &[Asked], told: &[Told]) -> Forecast {
    let mut added = Forecast::default();
    for (asked, told) in asked.iter().zip(told) {
        let is_create = matches!(&asked.change, Change::Step(_, step) if step.kind() == Kind::Create);
        match told {
            Ok(Answer::Stored(_)) => added.entries += 1,
            Ok(Answer::Done) if is_create => added.ledgers += 1,
            Ok(_) => {}
            Err(_) => added.refusals += 1,
        }
    }
    added
}

fn text(plan: &Plan, steps: usize, Forecast { entries, ledgers, refusals }: Forecast) -> String {
    let steps = steps as u64;
    if !plan.as_json {
        return format!("steps {steps} entries {entries} ledgers {ledgers} refusals {refusals}\n");
    }
    let counts = [("steps", steps), ("entries", entries), ("ledgers", ledgers), ("refusals", refusals)];
    Json::Object(counts.map(|(name, count)| (name, count.into())).into()).line()
}

/// The words of the plan's lines, up to the budget. A line that is none is refused though the budget ends before it.
fn taken(plan: &Plan) -> Result<Vec<StepWord>, Failure> {
    let bytes = bytes(&plan.lines)?;
    let wrong = |why: String| Failure::File(plan.lines.clone(), format!("{why}; no step is taken"));
    if bytes.len() > PLAN_LIMIT {
        return Err(wrong(format!("it has more than {PLAN_LIMIT} bytes")));
    }
    let mut words = Vec::new();
    for (number, line) in (1..).zip(bytes.split_inclusive(|&byte| byte == b'\n')) {
        let line = match line.strip_suffix(b"\n") {
            Some(bytes) => Line { bytes, ended: true },
            None => Line { bytes: line, ended: false },
        };
        words.push(word(line).map_err(|why| wrong(format!("line {number}: {why}")))?);
    }
    words.truncate(usize::try_from(plan.budget).unwrap_or(usize::MAX));
    Ok(words)
}

/// The word of a line, or what is wrong with it.
fn word(line: Line<'_>) -> Result<StepWord, String> {
    if !line.ended {
        return Err("it lacks its end: the plan was cut".into());
    }
    let Some((client, step)) = line.step() else {
        let field = line.bytes.split(|&byte| byte == b' ').nth(1);
        let is_high = field
            .and_then(|client| session::number(client, u64::MAX))
            .is_some_and(|client| client > CLIENT_NUMBER_LIMIT);
        return Err(if is_high {
            format!("a client is 0 to {CLIENT_NUMBER_LIMIT}")
        } else {
            let letters = Kind::ALL.map(|kind| kind.letter().to_string()).join(" ");
            format!("it is no step: one of {letters}, a client, and for a write a value, with one space between")
        });
    };
    StepWord::new(client, step).map_err(|_| format!("a value is 0 to {VALUE_LIMIT}"))
}

/// The file's bytes, as far as they can matter.
fn bytes(name: &Path) -> Result<Vec<u8>, Failure> {
    let mut bytes = Vec::new();
    let most = PLAN_LIMIT as u64 + 1;
    if name == "-" {
        if closed::input() {
            return Err(Failure::Arguments("standard input is closed, and PLAN is -".into()));
        }
        std::io::stdin().lock().take(most).read_to_end(&mut bytes).map_err(Failure::Input)?;
        return Ok(bytes);
    }
    let read = given::open(name)?.take(most).read_to_end(&mut bytes);
    read.map_err(|error| Failure::File(name.into(), format!("it cannot be read: {error}")))?;
    Ok(bytes)
}

#[cfg(test)]
mod tests {
    use super::*;
    use cindrolf::Step;

    #[test]
    fn words_of_lines() {
        let of = |text: &str, ended| word(Line { bytes: text.as_bytes(), ended });
        assert_eq!(of("W 255 4503599627370495", true), Ok(StepWord::new(255, Step::write(VALUE_LIMIT)).unwrap()));
        for (text, why) in [
            ("W 0 4503599627370496", "a value is 0 to 4503599627370495"),
            ("W 0 18446744073709551615", "a value is 0 to 4503599627370495"),
            ("W 256 1", "a client is 0 to 255"),
            ("B 256", "a client is 0 to 255"),
            ("2", "it is no step: one of N B A F L K C P W O, a client"),
            ("", "it is no step: "),
            ("W 0", "it is no step: "),
            ("W 0 18446744073709551616", "it is no step: "),
            ("b 0", "it is no step: "),
            ("B 0\r", "it is no step: "),
        ] {
            assert!(of(text, true).unwrap_err().starts_with(why), "{text}: {:?}", of(text, true));
        }
        assert_eq!(of("B 0", false), Err("it lacks its end: the plan was cut".into()));
    }
}
