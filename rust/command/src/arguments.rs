//! The arguments: which subcommand, on which file, with what.

use crate::failure::Failure;
use crate::plans::Plan;
use crate::steps::Manner;
use crate::steps_of_log::Part;
use crate::traces::Drawing;
use crate::write::{Reads, Writing};
use crate::{given, help, marks};
use cindrolf::{CLIENT_LIMIT, CLIENT_NUMBER_LIMIT, Capacity, Kind, MarkName, Right, VALUE_LIMIT, WINDOW_LIMIT};
use limits::WAIT_LIMIT;
use std::ffi::{OsStr, OsString};
use std::os::unix::ffi::{OsStrExt, OsStringExt};
use std::path::PathBuf;
use std::time::Duration;
use std::vec::IntoIter;
use store::{LastRow, PATIENCE, ROW_LIMIT};

/// What is to be done.
#[derive(Debug, PartialEq, Eq)]
pub enum Command {
    Help(&'static str),
    Version,
    Session { file: Option<PathBuf> },
    Total { files: Vec<PathBuf>, as_json: bool },
    Trace { file: PathBuf, drawing: Drawing },
    Create { file: PathBuf, clients: u64, capacity: Capacity },
    Step { file: PathBuf, lines: Vec<Vec<u8>>, manner: Manner },
    Write(Writing),
    Plan(Plan),
    Forecast(Plan),
    Show { file: PathBuf, as_json: bool },
    Watch { file: PathBuf },
    Chain { file: PathBuf, at: Option<MarkName>, as_csv: bool },
    Steps { file: PathBuf, as_csv: bool },
    Window { file: PathBuf, length: u64, limit: u64, as_json: bool },
    Advise { file: PathBuf, client: u64, as_json: bool },
    Marks { file: PathBuf, as_json: bool },
    SetMark { file: PathBuf, name: MarkName },
    DropMark { file: PathBuf, name: MarkName },
    Grant { file: PathBuf, client: u64, right: Right },
    Revoke { file: PathBuf, client: u64, right: Right },
    Check { file: PathBuf, at: Option<LastRow>, as_json: bool },
    Copy { file: PathBuf, to: PathBuf },
    Archive { file: PathBuf, to: PathBuf },
    Restore { archive: PathBuf, to: PathBuf },
    Upgrade { file: PathBuf, to: PathBuf },
    Schema,
    Audit { file: PathBuf, once: bool },
    Settle { file: PathBuf, request: u64 },
}

/// The command in these arguments.
pub fn command(args: impl Iterator<Item = OsString>) -> Result<Command, Failure> {
    let mut args: Vec<OsString> = args.collect();
    if args.is_empty() {
        return Err(Failure::Arguments(format!("there is no subcommand\n{}", help::OVERVIEW.trim_end())));
    }
    let name = args.remove(0);
    let name = match &*name.to_string_lossy() {
        "-h" | "--help" => return Ok(Command::Help(help::OVERVIEW)),
        "--version" => return Ok(Command::Version),
        name => name.to_owned(),
    };
    let help = help::of(&name).ok_or_else(|| unknown(&name))?;
    // In a line of steps it is neither.
    if args.first().is_some_and(|arg| arg == "-h" || arg == "--help") {
        return Ok(Command::Help(help));
    }
    parse(&name, args).map_err(|wrong| Failure::Arguments(format!("{wrong}\n{}", help::usage(help))))
}

/// What is no subcommand, with the closest one.
fn unknown(name: &str) -> Failure {
    Failure::Arguments(if name.starts_with('-') {
        format!("there is no option {name}\n{}", help::usage(help::OVERVIEW))
    } else {
        let closest = help::closest(name);
        format!("there is no subcommand {name}; the closest one is {closest}\n{}", help::usage(help::OVERVIEW))
    })
}

/// The options of a command, each with what its value is, where it has one.
fn options(name: &str) -> &'static [(&'static str, &'static str)] {
    match name {
        "trace" => &[
            ("--svg", ""),
            ("-o", "a file"),
            ("--client", "a client"),
            ("--from", "the number of a row"),
            ("--to", "the number of a row"),
        ],
        "create" => &[("--small", "")],
        "step" => &[("--explain", ""), ("--wait", "a number of seconds"), ("--witness", "a file")],
        "write" => &[("--fastq", "a file"), ("--scores", ""), ("--resume", ""), ("--strict", "")],
        "plan" | "forecast" => &[("--budget", "a number of steps"), ("--json", "")],
        "total" | "show" | "window" | "advise" => &[("--json", "")],
        "chain" => &[("--at", "a name"), ("--csv", "")],
        "steps" => &[("--csv", "")],
        "mark" => &[("--drop", ""), ("--json", "")],
        "check" => &[("--at", "a row"), ("--json", "")],
        "audit" => &[("--once", "")],
        _ => &[],
    }
}

fn parse(name: &str, args: Vec<OsString>) -> Result<Command, String> {
    let mut words = Words::split(args, options(name))?;
    match name {
        "session" => return Ok(Command::Session { file: words.one_file()? }),
        "total" => return words.total(),
        "trace" => return words.trace(),
        "write" => return words.write(),
        "schema" => return words.nothing().map(|()| Command::Schema),
        _ => {}
    }
    let file = words.next(if help::names_a_log(name) { "LOG" } else { "FILE" })?.into();
    let (as_json, as_csv) = (words.option("--json").is_some(), words.option("--csv").is_some());
    let command = match name {
        "create" => Command::Create { file, clients: words.clients()?, capacity: words.capacity() },
        "step" => {
            let manner = words.manner()?;
            Command::Step { file, lines: words.rest(), manner }
        }
        "plan" => Command::Plan(words.plan(file)?),
        "forecast" => Command::Forecast(words.plan(file)?),
        "show" => Command::Show { file, as_json },
        "watch" => Command::Watch { file },
        "chain" => Command::Chain { file, at: words.option("--at").map(|name| mark(&name)).transpose()?, as_csv },
        "steps" => Command::Steps { file, as_csv },
        "window" => Command::Window { file, length: words.length()?, limit: words.limit()?, as_json },
        "advise" => Command::Advise { file, client: words.client()?, as_json },
        "mark" => words.mark(file)?,
        "grant" => Command::Grant { file, client: words.client()?, right: words.right()? },
        "revoke" => Command::Revoke { file, client: words.client()?, right: words.right()? },
        "check" => Command::Check { file, at: words.option("--at").map(|row| last_row(&row)).transpose()?, as_json },
        "copy" => Command::Copy { file, to: words.next("TO")?.into() },
        "archive" => Command::Archive { file, to: words.next("ARCHIVE")?.into() },
        "restore" => Command::Restore { archive: file, to: words.next("TO")?.into() },
        "audit" => Command::Audit { file, once: words.option("--once").is_some() },
        "settle" => Command::Settle { file, request: words.request()? },
        _ => Command::Upgrade { file, to: words.next("NEW")?.into() },
    };
    match words.words.next() {
        Some(word) => Err(format!("{name} does not take '{}'", word.display())),
        None => Ok(command),
    }
}

/// The arguments of a command: the options that were given, with their values, and the others in their order.
struct Words {
    given: Vec<(&'static str, OsString)>,
    words: IntoIter<OsString>,
}

impl Words {
    /// Options may stand anywhere in front of `--`. Of one that is given twice the last counts.
    fn split(args: Vec<OsString>, options: &[(&'static str, &'static str)]) -> Result<Self, String> {
        let (mut given, mut words) = (Vec::new(), Vec::new());
        let mut args = args.into_iter();
        while let Some(arg) = args.next() {
            let option = options.iter().find(|(option, _)| arg == *option);
            if arg == "--" {
                words.extend(args.by_ref());
            } else if let Some(&(option, value)) = option {
                let wanted = || format!("{option} wants {value} after it");
                given.push((option, if value.is_empty() { arg } else { args.next().ok_or_else(wanted)? }));
            } else if arg.len() > 1 && arg.as_bytes().starts_with(b"-") {
                return Err(format!("there is no option {}", arg.display()));
            } else {
                words.push(arg);
            }
        }
        Ok(Words { given, words: words.into_iter() })
    }

    /// The value of an option, or its name where it has none, if it was given.
    fn option(&self, name: &str) -> Option<OsString> {
        self.given.iter().rfind(|(option, _)| *option == name).map(|(_, value)| value.clone())
    }

    fn manner(&self) -> Result<Manner, String> {
        let explain = self.option("--explain").is_some();
        let witness = self.option("--witness").map(PathBuf::from);
        let Some(text) = self.option("--wait") else { return Ok(Manner { explain, wait: PATIENCE, witness }) };
        let seconds = session::number(text.as_bytes(), WAIT_LIMIT);
        let seconds = seconds.ok_or(format!("SECONDS is 0 to {WAIT_LIMIT}, not '{}'", text.display()))?;
        Ok(Manner { explain, wait: Duration::from_secs(seconds), witness })
    }

    fn next(&mut self, what: &str) -> Result<OsString, String> {
        self.words.next().filter(|word| !word.is_empty()).ok_or(format!("{what} is missing"))
    }

    /// The one file that there may be.
    fn one_file(&mut self) -> Result<Option<PathBuf>, String> {
        match self.words.len() {
            0 | 1 => Ok(self.words.next().map(PathBuf::from)),
            count => Err(format!("one FILE, not {count}")),
        }
    }

    fn total(&mut self) -> Result<Command, String> {
        let files: Vec<PathBuf> = self.words.by_ref().map(PathBuf::from).collect();
        match given::twice(&files) {
            Some(twice) => Err(format!("{} is named twice, and would count twice", twice.display())),
            None => Ok(Command::Total { files, as_json: self.option("--json").is_some() }),
        }
    }

    fn plan(&mut self, log: PathBuf) -> Result<Plan, String> {
        let lines = self.next("PLAN")?.into();
        let budget = match self.option("--budget") {
            None => u64::MAX,
            Some(text) => session::number(text.as_bytes(), u64::MAX)
                .ok_or(format!("--budget wants a number of steps, not '{}'", text.display()))?,
        };
        Ok(Plan { log, lines, budget, as_json: self.option("--json").is_some() })
    }

    fn length(&mut self) -> Result<u64, String> {
        let text = self.next("LENGTH")?;
        let length = session::number(text.as_bytes(), WINDOW_LIMIT).filter(|&length| length > 0);
        length.ok_or(format!("LENGTH is a number of reads, 1 to {WINDOW_LIMIT}, not '{}'", text.display()))
    }

    fn limit(&mut self) -> Result<u64, String> {
        let text = self.words.next().ok_or("LIMIT is missing")?;
        let limit = session::parts(text.as_bytes());
        limit.ok_or(format!(
            "LIMIT is a number of errors in digits, with a point and up to twelve decimals, such as 0.010; at most {}; not '{}'",
            session::exact(u64::MAX),
            text.display()
        ))
    }

    fn trace(&mut self) -> Result<Command, String> {
        let page = self.option("-o").map(PathBuf::from);
        if page.as_ref().is_some_and(|page| page.as_os_str().is_empty()) {
            return Err("-o wants a file after it".into());
        }
        let file = self.one_file()?.ok_or("one FILE, not 0")?;
        let drawing = Drawing { page, svg: self.option("--svg").is_some(), part: self.part()? };
        Ok(Command::Trace { file, drawing })
    }

    /// Which rows of a log are asked for.
    fn part(&self) -> Result<Part, String> {
        let number = |option: &str, least: u64, most: u64| {
            let number = |text: &OsString| session::number(text.as_bytes(), most).filter(|&number| number >= least);
            let wrong =
                |text: OsString| format!("{option} is a number from {least} to {most}, not '{}'", text.display());
            self.option(option).map(|text| number(&text).ok_or_else(|| wrong(text))).transpose()
        };
        let client = number("--client", 0, CLIENT_NUMBER_LIMIT)?;
        let row = |option| number(option, 1, ROW_LIMIT as u64);
        match (row("--from")?, row("--to")?) {
            (Some(from), Some(to)) if from > to => Err(format!("--from {from} is after --to {to}")),
            (from, to) => Ok(Part { client, from, to }),
        }
    }

    /// The last word is the client, but for values, which come after it.
    fn write(&mut self) -> Result<Command, String> {
        let (resume, strict) = (self.option("--resume").is_some(), self.option("--strict").is_some());
        let fastq = self.option("--fastq").map(PathBuf::from);
        let reads = match (fastq, self.option("--scores")) {
            (Some(_), Some(_)) => return Err("one of --fastq and --scores, not both".into()),
            (Some(file), None) if file.as_os_str().is_empty() => return Err("--fastq wants a file after it".into()),
            (Some(file), None) => Reads::Fastq(file),
            _ if resume => return Err("--resume goes with --fastq: it finds reads by their names".into()),
            (None, Some(_)) => Reads::Scores,
            (None, None) if strict => return Err("--strict goes with --fastq or --scores".into()),
            (None, None) => Reads::Values(Vec::new()),
        };
        let words = self.words.len();
        let logs = if matches!(reads, Reads::Values(_)) { 1 } else { words.saturating_sub(1).max(1) };
        let logs: Vec<PathBuf> = (0..logs).map(|_| self.next("LOG").map(PathBuf::from)).collect::<Result<_, _>>()?;
        if let Some(twice) = given::twice(&logs) {
            return Err(format!("{} is named twice", twice.display()));
        }
        let client = self.client()?;
        let reads = if let Reads::Values(_) = reads { Reads::Values(self.values()?) } else { reads };
        Ok(Command::Write(Writing { logs, client, reads, resume, strict }))
    }

    fn values(&mut self) -> Result<Vec<u64>, String> {
        let value = |text: OsString| {
            let value = session::number(text.as_bytes(), VALUE_LIMIT);
            value.ok_or(format!("VALUE is 0 to {VALUE_LIMIT}, in units of 10^-12, not '{}'", text.display()))
        };
        let values: Vec<u64> = self.words.by_ref().map(value).collect::<Result<_, _>>()?;
        if values.is_empty() { Err("VALUE is missing, or --fastq READS, or --scores".into()) } else { Ok(values) }
    }

    fn nothing(&mut self) -> Result<(), String> {
        self.words.next().map_or(Ok(()), |word| Err(format!("it does not take '{}'", word.display())))
    }

    fn request(&mut self) -> Result<u64, String> {
        let text = self.next("REQUEST")?;
        let request = session::number(text.as_bytes(), u64::MAX);
        request.ok_or(format!("REQUEST is an id from a message, not '{}'", text.display()))
    }

    fn rest(&mut self) -> Vec<Vec<u8>> {
        self.words.by_ref().map(OsString::into_vec).collect()
    }

    fn capacity(&self) -> Capacity {
        if self.option("--small").is_some() { Capacity::Small } else { Capacity::Large }
    }

    fn clients(&mut self) -> Result<u64, String> {
        let text = self.next("CLIENTS")?;
        let clients = session::number(text.as_bytes(), CLIENT_LIMIT).filter(|&clients| clients > 0);
        clients.ok_or(format!("CLIENTS is 1 to {CLIENT_LIMIT}, not '{}'", text.display()))
    }

    fn client(&mut self) -> Result<u64, String> {
        let text = self.next("CLIENT")?;
        session::number(text.as_bytes(), CLIENT_NUMBER_LIMIT)
            .ok_or(format!("CLIENT is a number from 0, not '{}'", text.display()))
    }

    fn right(&mut self) -> Result<Right, String> {
        let text = self.next("STEP")?;
        let letter = text.to_str().and_then(|text| text.parse().ok());
        let letters = Kind::ALL.map(|kind| kind.letter().to_string()).join(" ");
        letter.and_then(Kind::from_letter).ok_or(format!("STEP is one of {letters}, not '{}'", text.display()))
    }

    /// With a name it sets or drops that mark, else it lists them.
    fn mark(&mut self, file: PathBuf) -> Result<Command, String> {
        let as_json = self.option("--json").is_some();
        match (self.words.next(), self.option("--drop")) {
            (Some(_), _) if as_json => Err("--json goes with the list of marks, without NAME".into()),
            (Some(name), None) => Ok(Command::SetMark { file, name: mark(&name)? }),
            (Some(name), Some(_)) => Ok(Command::DropMark { file, name: mark(&name)? }),
            (None, None) => Ok(Command::Marks { file, as_json }),
            (None, Some(_)) => Err("NAME is missing".into()),
        }
    }
}

fn mark(name: &OsStr) -> Result<MarkName, String> {
    marks::name(name.as_bytes()).ok_or(format!("NAME has 1 to 8 bytes, and '{}' has {}", name.display(), name.len()))
}

fn last_row(text: &OsStr) -> Result<LastRow, String> {
    let row = text.to_str().and_then(|text| text.parse().ok());
    row.ok_or(format!("N:CHAIN is as show and check print it, not '{}'", text.display()))
}

#[cfg(test)]
mod tests {
    use super::*;

    fn parsed(args: &str) -> Result<Command, String> {
        command(args.split(' ').map(OsString::from)).map_err(|failure| match failure {
            Failure::Arguments(text) => text,
            _ => panic!("another failure"),
        })
    }

    fn usage(name: &str) -> &'static str {
        help::usage(help::of(name).unwrap())
    }

    #[test]
    fn options_anywhere() {
        let small = || Ok(Command::Create { file: "f".into(), clients: 2, capacity: Capacity::Small });
        for args in ["create --small f 2", "create f --small 2", "create f 2 --small", "create --small -- f 2"] {
            assert_eq!(parsed(args), small(), "{args}");
        }
        let show = |file: &str, as_json| Ok(Command::Show { file: file.into(), as_json });
        assert_eq!(parsed("show -- --small"), show("--small", false));
        assert_eq!(parsed("show -"), show("-", false));
        assert_eq!(parsed("show --json f"), show("f", true));
        assert_eq!(parsed("show f -- --json"), Err(format!("show does not take '--json'\n{}", usage("show"))));
        let manner = || Manner { explain: true, wait: Duration::from_secs(7), witness: Some("w".into()) };
        for args in [
            "step --explain --wait 7 f W --witness w",
            "step --witness w --wait 7 f W --explain",
            "step f --wait 5 W --wait 7 --explain --witness w",
        ] {
            assert_eq!(
                parsed(args),
                Ok(Command::Step { file: "f".into(), lines: vec![b"W".to_vec()], manner: manner() }),
                "{args}"
            );
        }
        let at = marks::name(b"-x");
        assert_eq!(parsed("chain f --at -x"), Ok(Command::Chain { file: "f".into(), at, as_csv: false }));
    }

    #[test]
    fn pages_and_pictures() {
        let part_drawn = |page: Option<&str>, svg, part| Command::Trace {
            file: "a".into(),
            drawing: Drawing { page: page.map(PathBuf::from), svg, part },
        };
        let drawn = |page, svg| part_drawn(page, svg, Part::default());
        assert_eq!(parsed("trace a"), Ok(drawn(None, false)));
        assert_eq!(parsed("trace --svg a"), Ok(drawn(None, true)));
        assert_eq!(parsed("trace a -o -b"), Ok(drawn(Some("-b"), false)));
        let some = Part { client: Some(3), from: Some(2), to: Some(2) };
        assert_eq!(parsed("trace a --from 2 --to 2 --client 3"), Ok(part_drawn(None, false, some)));
        for (args, wrong) in [
            ("trace", "one FILE, not 0"),
            ("trace a b", "one FILE, not 2"),
            ("trace a -o", "-o wants a file"),
            ("trace a --from", "--from wants the number of a row after it"),
            ("trace a --from 0", "--from is a number from 1 to 1000000, not '0'"),
            ("trace a --to 1000001", "--to is a number from 1 to 1000000, not '1000001'"),
            ("trace a --client 256", "--client is a number from 0 to 255, not '256'"),
            ("trace a --client x", "--client is a number from 0 to 255, not 'x'"),
            ("trace a --from 3 --to 2", "--from 3 is after --to 2"),
        ] {
            assert!(parsed(args).unwrap_err().starts_with(wrong), "{args}");
        }
        assert_eq!(parsed("session -- -a"), Ok(Command::Session { file: Some("-a".into()) }));
        assert_eq!(parsed("total"), Ok(Command::Total { files: vec![], as_json: false }));
        let files = vec!["a".into(), "b".into()];
        assert_eq!(parsed("total a --json b"), Ok(Command::Total { files, as_json: true }));
    }

    #[test]
    fn every_command_has_its_usage() {
        for name in "create step plan forecast show chain steps window advise mark grant revoke check copy".split(' ') {
            let text = parsed(name).unwrap_err();
            let what = if ["plan", "forecast", "steps", "window"].contains(&name) { "LOG" } else { "FILE" };
            assert!(text.starts_with(&format!("{what} is missing\nusage: cindrolf {name} ")), "{text}");
        }
    }
}
