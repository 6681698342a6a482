//! How a write and the check grow with entries and with ledgers, as a picture.

use crate::checks;
use crate::measure::{Spread, interleaved};
use crate::placed::Placed;
use crate::rows::{look, shared, write};
use crate::table::SLICE;
use compare::call::Buffers;
use compare::logs::chain;
use plot::{Line, Panel};

/// Times by a number that grows, as lines.
fn grow(library: &Placed, title: &'static str, steps: &[u64], rounds: usize, log: impl Fn(u64) -> Buffers) -> Panel {
    let mut lines: Vec<Line> = vec![];
    for &step in steps {
        let log = log(step);
        let candidates = vec![
            write("library write", &shared(&log), |state, entries| library.write(state, entries, 7)),
            look("library check", &log, |state, entries| library.well_formed(state, entries)),
            look("idiomatic check", &log, checks::idiomatic),
            look("branch-free check", &log, checks::branch_free),
            look("or over the words", &log, checks::limit),
        ];
        for (index, taken) in interleaved(candidates, rounds, SLICE).into_iter().enumerate() {
            if index == lines.len() {
                lines.push(Line { name: taken.name, points: vec![] });
            }
            lines[index].points.push((step as f64, Spread::of(taken.nanoseconds).median / 1000.0));
        }
    }
    Panel { title, unit: "µs a call", decimals: 2, even: false, lines }
}

/// The picture: over entries in one ledger, and over ledgers of one entry each.
pub fn svg(library: &Placed, rounds: usize) -> String {
    let entries: Vec<u64> = (0..8).map(|step| step * 512).chain([4095]).collect();
    let ledgers: Vec<u64> = [1, 32, 64, 96, 128, 160, 192, 224, 255].to_vec();
    let panels = [
        grow(library, "entries, in one ledger", &entries, rounds, |entries| chain(1, 1, entries)),
        grow(library, "ledgers, of one entry each", &ledgers, rounds, |ledgers| chain(1, ledgers, ledgers)),
    ];
    plot::svg(&panels)
}
