//! The tables that the benchmark prints, in Markdown.

use crate::instructions;
use crate::measure::{Other, Placements, Row, measured};
use crate::placed::Placed;
use std::collections::HashMap;
use std::time::Duration;

/// How long a candidate's turn is.
pub const SLICE: Duration = Duration::from_micros(500);

/// A number with as many decimals as its size asks for.
fn short(number: f64) -> String {
    let decimals = if number.abs() < 10.0 { 2 } else { usize::from(number.abs() < 100.0) };
    format!("{number:.decimals$}")
}

/// What the first line of a file of /proc that begins with this says.
fn about(file: &str, key: &str) -> String {
    let text = std::fs::read_to_string(file).unwrap_or_default();
    let line = text.lines().find(|line| line.starts_with(key)).unwrap_or("unknown");
    line.rsplit(": ").next().unwrap_or(line).trim().into()
}

/// Says on which machine, and how busy it is.
pub fn machine() {
    println!("Processor: {}. Load before: {}.", about("/proc/cpuinfo", "model name"), load());
}

/// How busy the machine is.
pub fn load() -> String {
    about("/proc/loadavg", "")
}

/// The name that a candidate's instructions are counted by.
fn name_of(row: &Row, candidate: &str) -> String {
    format!("{}/{}/{candidate}", row.log, row.operation)
}

/// Counts the instructions of every candidate, the library's at its first placement. Valgrind has to run the program.
pub fn count(rows: Vec<Row>) {
    for mut row in rows {
        let names: Vec<String> = row.others.iter().map(|other| name_of(&row, other.name)).collect();
        let (library, less) = (name_of(&row, "library"), name_of(&row, "less"));
        instructions::count(&library, &mut row.placed[0]);
        row.less.iter_mut().take(1).for_each(|candidate| instructions::count(&less, candidate));
        row.others.iter_mut().zip(&names).for_each(|(other, name)| instructions::count(name, other));
    }
}

/// Says at which places the library is, which have to differ.
pub fn placements(libraries: &[Placed]) -> Result<(), String> {
    let mut places: Vec<usize> = libraries.iter().map(|library| library.address() % 4096).collect();
    let said: Vec<String> = places.iter().map(|place| (place % 64).to_string()).collect();
    println!(
        "The library is linked at {} placements. Its check is at these bytes of a line of 64: {}.",
        libraries.len(),
        said.join(", ")
    );
    places.sort_unstable();
    places.dedup();
    if places.len() < libraries.len() { Err("two placements are the same".into()) } else { Ok(()) }
}

fn library_row(row: &Row, times: &Placements, instructions: Option<u64>) -> String {
    let times = [times.best, times.median, times.worst, times.spread].map(short).join(" | ");
    format!("| {} | {} | library | {times} | | {} |", row.log, row.operation, counted(instructions))
}

fn other_row(log: &str, operation: &str, other: &Other, instructions: Option<u64>) -> String {
    let ratio = format!("{} ({} to {})", short(other.ratio.median), short(other.ratio.low), short(other.ratio.high));
    let time = short(other.nanoseconds.median);
    format!("| {log} | {operation} | {} | | {time} | | | {ratio} | {} |", other.name, counted(instructions))
}

fn counted(instructions: Option<u64>) -> String {
    instructions.map_or(String::new(), |count| count.to_string())
}

/// Measures every row and prints it.
pub fn print(rows: Vec<Row>, rounds: usize, instructions: &HashMap<String, u64>) {
    println!("Nanoseconds a call: medians of {rounds} rounds, in which all candidates take turns.\n");
    println!(
        "| Log | Operation | Candidate | Best | Median | Worst | Worst / best | Library's worst / this | Instructions |"
    );
    println!("|---|---|---|---|---|---|---|---|---|");
    for row in rows {
        let find = |name: &str| instructions.get(&name_of(&row, name)).copied();
        let less = find("less").unwrap_or(0);
        let library = find("library").map(|count| count - less);
        let names = Row { placed: vec![], less: vec![], others: vec![], ..row };
        let counts: HashMap<&str, Option<u64>> = row
            .others
            .iter()
            .map(|other| (other.name, instructions.get(&name_of(&names, other.name)).copied()))
            .collect();
        let (placements, others) = measured(row, rounds, SLICE);
        println!("{}", library_row(&names, &placements, library));
        for other in others {
            println!("{}", other_row(names.log, names.operation, &other, counts[other.name]));
        }
    }
    println!("\nLoad after: {}.", load());
}
