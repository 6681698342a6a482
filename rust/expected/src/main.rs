//! Compares the kept outputs with the model, or writes them. See `--help`.

use expected::{files, session, total};
use std::fs;
use std::io::{self, Write};
use std::process::ExitCode;

const HELP: &str = "\
Holds every expected output that the repository keeps against the model.

  --write         writes them, from the model
  --session FILE  prints what the session program must print for this input
  --total FILE    prints what the program of the run total must print for it
  --help          this text";

/// The first line that isn't the same, counted from 1.
fn first_difference(kept: &str, text: &str) -> usize {
    1 + kept.lines().zip(text.lines()).take_while(|(kept, expected)| kept == expected).count()
}

/// Whether every kept output is the model's.
fn compare() -> io::Result<bool> {
    let mut same = true;
    for expected in files::all()? {
        let kept = fs::read_to_string(files::root().join(&expected.file))?;
        let file = expected.file.display();
        if kept == expected.text {
            println!("{file}: {} bytes, as the model has them", kept.len());
        } else {
            same = false;
            println!("{file}: line {} is another than the model's", first_difference(&kept, &expected.text));
        }
    }
    Ok(same)
}

fn write() -> io::Result<bool> {
    for expected in files::all()? {
        fs::write(files::root().join(&expected.file), expected.text)?;
        println!("wrote {}", expected.file.display());
    }
    Ok(true)
}

fn print(program: fn(&[u8]) -> String, file: &str) -> io::Result<bool> {
    io::stdout().write_all(program(&fs::read(file)?).as_bytes())?;
    Ok(true)
}

fn main() -> ExitCode {
    let args: Vec<String> = std::env::args().skip(1).collect();
    let args: Vec<&str> = args.iter().map(String::as_str).collect();
    let result = match args[..] {
        [] => compare(),
        ["--write"] => write(),
        ["--session", file] => print(session::transcript, file),
        ["--total", file] => print(total::output, file),
        ["--help"] => {
            println!("{HELP}");
            Ok(true)
        }
        _ => {
            eprintln!("expected: unknown arguments\n\n{HELP}");
            return ExitCode::from(2);
        }
    };
    match result {
        Ok(true) => ExitCode::SUCCESS,
        Ok(false) => ExitCode::FAILURE,
        Err(error) => {
            eprintln!("expected: {error}");
            ExitCode::from(2)
        }
    }
}
