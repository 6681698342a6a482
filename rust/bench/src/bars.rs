//! The compressed sizes as bars, as SVG.

use crate::sizes::Sizes;
use std::fmt::Write;

const LEFT: f64 = 270.0;
const WIDTH: f64 = 420.0;
const BAR: f64 = 14.0;
const GROUP: f64 = 46.0;
const TOP: f64 = 30.0;
/// A full log's entries without a compressor.
const WHOLE: f64 = 32_768.0;
const COLOURS: [(&str, &str); 2] = [("as they are", "#7f8c8d"), ("rearranged", "#1b6ca8")];

/// A pair of bars for each run and compressor, over the bytes that are left.
pub fn svg(all: &[Sizes]) -> String {
    let bottom = TOP + GROUP * all.len() as f64;
    let (width, height) = (LEFT + WIDTH + 70.0, bottom + 70.0);
    let mut text = format!(
        "<svg xmlns='http://www.w3.org/2000/svg' width='{width}' height='{height}' \
         font-family='sans-serif' font-size='12'>\n<rect width='100%' height='100%' fill='white'/>\n"
    );
    for part in [0.0, 0.25, 0.5, 0.75, 1.0] {
        let x = LEFT + part * WIDTH;
        let _ = writeln!(text, "<path d='M{x} {}V{bottom}' stroke='#ddd'/>", TOP - 8.0);
        let _ = writeln!(text, "<text x='{x}' y='{}' text-anchor='middle'>{:.0}</text>", bottom + 16.0, part * WHOLE);
    }
    for (index, sizes) in all.iter().enumerate() {
        group(&mut text, sizes, TOP + GROUP * index as f64);
    }
    for (index, (name, colour)) in COLOURS.iter().enumerate() {
        let (x, y) = (LEFT + index as f64 * 130.0, bottom + 46.0);
        let _ = writeln!(text, "<rect x='{x}' y='{}' width='20' height='10' fill='{colour}'/>", y - 9.0);
        let _ = writeln!(text, "<text x='{}' y='{y}'>{name}</text>", x + 26.0);
    }
    let _ = writeln!(text, "<text x='{}' y='{}' text-anchor='end'>bytes</text>", LEFT - 10.0, bottom + 16.0);
    text + "</svg>\n"
}

fn group(text: &mut String, sizes: &Sizes, top: f64) {
    let name = format!("{}, {}", sizes.run, sizes.compressor);
    let _ = writeln!(text, "<text x='{}' y='{}' text-anchor='end'>{name}</text>", LEFT - 10.0, top + BAR + 4.0);
    for (place, (size, (_, colour))) in [sizes.plain, sizes.rearranged].into_iter().zip(COLOURS).enumerate() {
        let (y, length) = (top + place as f64 * (BAR + 2.0), size as f64 / WHOLE * WIDTH);
        let _ = writeln!(text, "<rect x='{LEFT}' y='{y}' width='{length:.1}' height='{BAR}' fill='{colour}'/>");
        let _ = writeln!(text, "<text x='{:.1}' y='{}'>{size}</text>", LEFT + length + 4.0, y + BAR - 3.0);
    }
}
