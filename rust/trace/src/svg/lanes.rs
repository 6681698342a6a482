//! The lanes of the picture: each step at its client, and each client's stage, in as many rows as the steps need.

use super::shapes::{Area, Shapes, WIDTH, stage_room};
use crate::frames::{Frame, Frames, Outcome};
use crate::scene::{Change, Standing};

/// Where the steps begin, beside the clients' names.
const LEFT: i64 = 104;
const RIGHT: i64 = WIDTH - 12;
/// A lane's height, that of a lane in which nothing happens, and those of its parts.
const LANE: i64 = 76;
const LOW: i64 = 28;
const BOX: i64 = 38;
const STAGE: i64 = 20;
/// The least width of a step.
const NARROWEST: i64 = 46;
/// Stands before the number of a step that was refused.
const CROSS: &str = "\u{2715} ";
/// The most characters of a line that are drawn.
const LONGEST: usize = 22;

/// A step's place in a row of the picture.
struct Column<'a> {
    number: u64,
    x: i64,
    width: i64,
    frame: &'a Frame,
    /// The time that is drawn beside its number.
    time: String,
}

/// The line and the reply as they are drawn: a long line is cut, a star is put to the name of a leader, and an entry's
/// place in its ledger is left out.
fn shown(frame: &Frame) -> (String, &str) {
    let mut line: String = frame.line.chars().take(LONGEST).collect();
    if frame.line.chars().count() > LONGEST {
        line.push('\u{2026}');
    }
    if frame.changes.iter().any(|change| matches!(change, Change::Named(_, _))) {
        line += " \u{2605}";
    }
    (line, frame.reply.split(" place ").next().unwrap_or_default())
}

/// How wide a step is: as its line, its reply, its time and the words of the stages that begin with it need.
fn width(frame: &Frame, number: u64, time: &str) -> i64 {
    let (line, reply) = shown(frame);
    let head = if time.is_empty() { 0 } else { number.to_string().len() + CROSS.chars().count() + time.len() };
    // The head of a refused step is bold.
    let texts = (line.chars().count().max(reply.len()) as i64 * 15 / 2).max(head as i64 * 8) + 6;
    let stages = frame.changes.iter().filter_map(|change| match change {
        Change::Standing(_, _, to) => Some(stage_room(to.short(), to.classes())),
        _ => None,
    });
    stages.fold(texts.max(NARROWEST), i64::max)
}

/// The day on which a frame's row was stored.
fn day(frame: &Frame) -> Option<&str> {
    frame.row.as_ref()?.time.as_ref().map(|[day, _]| day.as_str())
}

/// When a row was stored: the second, and the day where that is another than the one before.
fn time(frame: &Frame, day_before: Option<&str>) -> String {
    let Some([day, time]) = frame.row.as_ref().and_then(|row| row.time.as_ref()) else { return String::new() };
    let second = time.split('.').next().unwrap_or_default();
    if day_before == Some(day) { format!(" {second}") } else { format!(" {day} {second}") }
}

/// The steps in rows.
fn rows(frames: &[Frame]) -> Vec<Vec<Column<'_>>> {
    let (mut rows, mut x, mut day_before) = (vec![Vec::new()], LEFT, None);
    for (place, frame) in (1..).zip(frames) {
        let (number, time) = (frame.number(place), time(frame, day_before));
        day_before = day(frame).or(day_before);
        let width = width(frame, number, &time);
        if x + width > RIGHT {
            rows.push(Vec::new());
            x = LEFT;
        }
        rows.last_mut().expect("there is a row from the start").push(Column { number, x, width, frame, time });
        x += width;
    }
    rows
}

/// Draws all rows from this height on, and answers where they end.
pub fn draw(shapes: &mut Shapes, frames: &Frames, top: i64) -> i64 {
    let (mut standings, mut named, mut y) = (frames.start.clients.clone(), frames.start.named, top);
    for row in rows(&frames.frames) {
        let (lanes, below) = lanes(&row, &standings, y + 24);
        for (client, &lane) in (0..).zip(&lanes) {
            shapes.line(16, lane - 4, WIDTH - 16, lane - 4);
            if client == standings.len() as u64 {
                shapes.words(20, lane + 15, "soft", "no client");
                continue;
            }
            shapes.words(20, lane + 15, "bold ink", "client");
            shapes.chip(Area(66, lane, 28, 20), client, &client.to_string());
            if named == client {
                let is_low = lanes.get(client as usize + 1).unwrap_or(&below) - lane == LOW;
                let (x, y) = if is_low { (LEFT, lane + 15) } else { (20, lane + 38) };
                shapes.words(x, y, "soft", "\u{2605} named");
            }
        }
        steps(shapes, &row, &lanes, y, standings.len());
        stages(shapes, &row, &lanes, &mut standings);
        named = row.iter().flat_map(|column| &column.frame.changes).fold(named, |named, change| match change {
            Change::Named(_, to) => *to,
            _ => named,
        });
        y = refusals(shapes, &row, below);
    }
    y
}

/// Where each client's lane begins in a row, and where the last ends. A client that neither leads nor takes a step there
/// has a low one. Bad lines and steps of unknown clients have one more, where the row has any.
fn lanes(row: &[Column], standings: &[Standing], top: i64) -> (Vec<i64>, i64) {
    let (clients, mut y, mut lanes) = (standings.len(), top, Vec::new());
    for lane in 0..=clients {
        let acts = row.iter().any(|column| lane_of(column.frame, clients) == lane);
        let leads = standings.get(lane).is_some_and(|standing| !standing.short().is_empty());
        if lane < clients || acts {
            lanes.push(y);
            y += match lane {
                _ if lane == clients => BOX + 12,
                _ if acts || leads => LANE,
                _ => LOW,
            };
        }
    }
    (lanes, y)
}

/// The lane of a step: its client's, and where there is no such client the one after all clients.
fn lane_of(frame: &Frame, clients: usize) -> usize {
    frame.client.map(|client| client as usize).filter(|&client| client < clients).unwrap_or(clients)
}

/// The steps of a row, each in its lane.
fn steps(shapes: &mut Shapes, row: &[Column], lanes: &[i64], y: i64, clients: usize) {
    for column in row {
        let (line, reply) = shown(column.frame);
        let lane = lanes[lane_of(column.frame, clients)];
        let area = Area(column.x + 2, lane, column.width - 4, BOX);
        let refused = column.frame.outcome == Outcome::Refused;
        let (look, cross) = if refused { ("bold bad", CROSS) } else { ("soft", "") };
        shapes.words(column.x + 4, y + 12, look, &format!("{cross}{}{}", column.number, column.time));
        shapes.step(area, if line.is_empty() { "(empty)" } else { &line }, reply, refused);
    }
}

/// The stages of all clients over a row. The standings are left as they are after it.
fn stages(shapes: &mut Shapes, row: &[Column], lanes: &[i64], standings: &mut [Standing]) {
    for ((client, standing), lane) in (0..).zip(standings.iter_mut()).zip(lanes) {
        let top = lane + BOX + 6;
        let (mut since, mut end) = (LEFT, LEFT);
        for column in row {
            let new = column.frame.changes.iter().find_map(|change| match change {
                Change::Standing(of, _, to) if *of == client => Some(*to),
                _ => None,
            });
            if let Some(new) = new {
                stage(shapes, Area(since, top, column.x - since, STAGE), client, standing);
                (*standing, since) = (new, column.x);
            }
            end = column.x + column.width;
        }
        stage(shapes, Area(since, top, end - since, STAGE), client, standing);
    }
}

fn stage(shapes: &mut Shapes, area: Area, client: u64, standing: &Standing) {
    if area.2 > 0 && !standing.short().is_empty() {
        shapes.stage(Area(area.0, area.1, area.2 - 2, area.3), client, standing.short(), standing.classes());
    }
}

/// The refusals of a row in words.
fn refusals(shapes: &mut Shapes, row: &[Column], top: i64) -> i64 {
    let mut y = top;
    for column in row.iter().filter(|column| column.frame.outcome == Outcome::Refused) {
        y += 20;
        let text = format!("{CROSS}{} refused, {}: {}", column.number, column.frame.reply, column.frame.text);
        shapes.words(24, y, "bold bad", &text);
    }
    y + 20
}
