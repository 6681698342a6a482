//! What the operations cost at several placements of the library, beside plain Rust, in one run; and what compressors make of a full
//! log. See `--help`.

mod against;
mod bars;
mod checks;
mod growth;
mod instructions;
mod library;
mod measure;
mod object;
mod placed;
mod plans;
mod rows;
mod sizes;
mod storage;
mod sums;
mod table;
mod windows;

use compare::arguments;
use placed::Placed;
use std::collections::HashMap;
use std::path::{Path, PathBuf};
use std::process::ExitCode;

const HELP: &str = "\
Times the operations of the proved library at several placements beside plain Rust, in turn. Then has gzip and zstd compress a
full log's entries, as they are and rearranged. tools/bench builds it, makes the placements and calls it.

  --placed FILE  the library as a shared object, once for each placement
  --count        has callgrind count instructions instead of timing; valgrind has to run the program
  --counted DIR  the folder of callgrind's files, whose counts go into the table
  --rounds N     rounds for each row (default 201)
  --plot FILE    where the plot of cost against entries and ledgers goes
  --sizes FILE   where the plot of compressed sizes goes
  --against BEFORE AFTER
                 times a write alone, by two archives, each made a shared object
  --help         this text";

struct Options {
    rounds: usize,
    placed: Vec<PathBuf>,
    count: bool,
    counted: Option<PathBuf>,
    plot: Option<PathBuf>,
    sizes: Option<PathBuf>,
    against: Option<(PathBuf, PathBuf)>,
}

fn options(mut args: impl Iterator<Item = String>) -> Result<Options, String> {
    let mut options =
        Options { rounds: 201, placed: vec![], count: false, counted: None, plot: None, sizes: None, against: None };
    while let Some(arg) = args.next() {
        let mut next = || args.next().ok_or(format!("{arg} wants a word after it"));
        match arg.as_str() {
            "--rounds" => {
                let text = next()?;
                let rounds = text.parse().ok().filter(|&rounds| rounds > 0);
                options.rounds = rounds.ok_or(format!("--rounds wants a number from 1, not '{text}'"))?;
            }
            "--placed" => options.placed.push(next()?.into()),
            "--count" => options.count = true,
            "--counted" => options.counted = Some(next()?.into()),
            "--plot" => options.plot = Some(next()?.into()),
            "--sizes" => options.sizes = Some(next()?.into()),
            "--against" => options.against = Some((next()?.into(), next()?.into())),
            _ => return Err(format!("unknown option '{arg}'\n\n{HELP}")),
        }
    }
    if options.placed.is_empty() && options.against.is_none() {
        return Err(format!("it needs the library, by --placed or --against\n\n{HELP}"));
    }
    Ok(options)
}

fn save(path: &Path, svg: &str) -> Result<(), String> {
    let said = |error| format!("{} can't be written: {error}", path.display());
    if let Some(folder) = path.parent() {
        std::fs::create_dir_all(folder).map_err(said)?;
    }
    std::fs::write(path, svg).map_err(said)?;
    println!("The plot is in {}.", path.display());
    Ok(())
}

/// Prints what the compressors that are there make of a full log's entries, and plots it. One that is missing is named.
fn compressed(path: &Path) -> Result<(), String> {
    println!("\nBytes of a full log's entries after compression: 32,768 before.\n");
    println!("| Run | Compressor | Plain | Rearranged | Ratio |\n|---|---|---|---|---|");
    let mut all = vec![];
    for (compressor, arguments) in sizes::COMPRESSORS {
        match sizes::measured(compressor, arguments) {
            Ok(sizes) => all.extend(sizes),
            Err(error) => eprintln!("bench: no sizes from {compressor}: {error}"),
        }
    }
    for each in &all {
        let ratio = each.rearranged as f64 / each.plain as f64;
        println!("| {} | {} | {} | {} | {ratio:.2} |", each.run, each.compressor, each.plain, each.rearranged);
    }
    if all.is_empty() { Ok(()) } else { save(path, &bars::svg(&all)) }
}

fn run(options: Options) -> Result<(), String> {
    if let Some((before, after)) = options.against {
        table::machine();
        against::against(&before, &after, options.rounds)?;
        println!("Load after: {}.", table::load());
        return Ok(());
    }
    let libraries = options.placed.iter().map(|path| Placed::load(path)).collect::<Result<Vec<_>, _>>()?;
    let inputs = rows::Inputs::new();
    if options.count {
        if !instructions::can_count() {
            return Err("--count wants valgrind --tool=callgrind to run it".into());
        }
        table::count(rows::all(&libraries, &inputs));
        return Ok(());
    }
    let counted = match &options.counted {
        Some(folder) => instructions::read(folder).map_err(|error| format!("{}: {error}", folder.display()))?,
        None => HashMap::new(),
    };
    table::machine();
    table::placements(&libraries)?;
    table::print(rows::all(&libraries, &inputs), options.rounds, &counted);
    options.sizes.map_or(Ok(()), |path| compressed(&path))?;
    options.plot.map_or(Ok(()), |path| save(&path, &growth::svg(&libraries[0], options.rounds.div_ceil(3))))
}

fn main() -> ExitCode {
    let options = match arguments::options("bench", HELP, options) {
        Ok(options) => options,
        Err(status) => return status,
    };
    match run(options) {
        Err(error) => {
            eprintln!("bench: {error}");
            ExitCode::FAILURE
        }
        Ok(()) => ExitCode::SUCCESS,
    }
}
