//! What the programs here do with their arguments.

use std::process::ExitCode;
use std::vec::IntoIter;

/// The options of a program. Where there are none, for help was asked or they are wrong, that is printed and the
/// program is to end with the status given.
pub fn options<T>(
    program: &str,
    help: &str,
    parse: impl FnOnce(IntoIter<String>) -> Result<T, String>,
) -> Result<T, ExitCode> {
    let args: Vec<String> = std::env::args().skip(1).collect();
    if args.iter().any(|arg| arg == "--help") {
        println!("{help}");
        return Err(ExitCode::SUCCESS);
    }
    parse(args.into_iter()).map_err(|text| {
        eprintln!("{program}: {text}");
        ExitCode::from(2)
    })
}
