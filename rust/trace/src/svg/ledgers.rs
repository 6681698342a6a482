//! The ledgers of the picture at the end: the chain in the order of the list, and those that are not listed.

use super::shapes::{Area, Shapes, WIDTH};
use crate::frames::Frames;

const LEFT: i64 = 24;
const RIGHT: i64 = WIDTH - 34;
const CHIP: i64 = 22;

/// Draws all ledgers from this height on, and answers where they end.
pub fn draw(shapes: &mut Shapes, frames: &Frames, top: i64) -> i64 {
    let unlisted: Vec<u64> =
        (1..=frames.end.ledgers.len() as u64).filter(|ledger| !frames.end.list.contains(ledger)).collect();
    let below = group(shapes, frames, "The chain at the end: the listed ledgers", &frames.end.list, top);
    if unlisted.is_empty() { below } else { group(shapes, frames, "Created, not listed", &unlisted, below) }
}

fn group(shapes: &mut Shapes, frames: &Frames, title: &str, ledgers: &[u64], top: i64) -> i64 {
    shapes.words(LEFT, top + 14, "bold soft", if ledgers.is_empty() { "No ledger is listed." } else { title });
    let (mut x, mut y, mut height) = (LEFT, top + 30, 0);
    for (place, &number) in ledgers.iter().enumerate() {
        let (width, rows) = layout(frames, number);
        if x > LEFT && x + width > RIGHT {
            (x, y, height) = (LEFT, y + height + 18, 0);
        }
        let area = Area(x, y, width, 30 + (CHIP + 4) * rows);
        ledger(shapes, frames, number, area);
        height = height.max(area.3);
        x += width + 44;
        let is_last = place + 1 == ledgers.len();
        if !is_last && title.starts_with("The chain") {
            shapes.words(x - 25, y + area.3 / 2 + 5, "bold ink", "\u{2192}");
        }
    }
    y + height + 12
}

/// The chips of a ledger, with their widths.
fn chips(frames: &Frames, number: u64) -> impl Iterator<Item = (u64, String, i64)> {
    frames.entries[number as usize - 1].iter().map(|entry| {
        let text = format!("{}:{}", entry.client, entry.value);
        let width = text.len() as i64 * 8 + 14;
        (entry.client, text, width)
    })
}

/// A ledger's width, and how many rows its entries take.
fn layout(frames: &Frames, number: u64) -> (i64, i64) {
    let (mut x, mut most, mut rows) = (0, 190, 1);
    for (_, _, width) in chips(frames, number) {
        if x > 0 && x + width > RIGHT - LEFT - 20 {
            (x, rows) = (0, rows + 1);
        }
        x += width + 6;
        most = most.max(x + 14);
    }
    (most, rows)
}

fn ledger(shapes: &mut Shapes, frames: &Frames, number: u64, area: Area) {
    let condition = frames.end.ledgers[number as usize - 1];
    shapes.ledger(area, condition.open, condition.fenced, condition.recovering);
    let Area(left, top, width, _) = area;
    shapes.words(left + 10, top + 18, "bold ink", &format!("ledger {number}"));
    shapes.words(left + 76, top + 18, "ink", condition.text());
    let (mut x, mut y) = (left + 10, top + 26);
    for (client, text, chip) in chips(frames, number) {
        if x > left + 10 && x + chip > left + width {
            (x, y) = (left + 10, y + CHIP + 4);
        }
        shapes.chip(Area(x, y, chip, CHIP), client, &text);
        x += chip + 6;
    }
}
