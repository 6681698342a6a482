//! A whole session, or the rows of a log, as one static picture: the lanes over time, the refusals in words, and the ledgers at the end.

mod lanes;
mod ledgers;
mod shapes;

use crate::escape::markup;
use crate::frames::{Frame, Frames, Outcome};
use crate::page::why;
use session::NoSession;
use shapes::{SOFT, Shapes, WIDTH};

/// The colours on a dark page. Those on a light one stand at the shapes themselves, for programs that know no style.
pub const STYLE: &str = include_str!("svg.css");

/// The picture as a file of its own.
pub fn picture(name: &str, frames: &Result<Frames, NoSession>) -> String {
    let drawing = match frames {
        Ok(frames) => drawing(&markup(name), frames),
        Err(reason) => no_session(&markup(name), *reason),
    };
    format!("<?xml version=\"1.0\" encoding=\"UTF-8\"?>\n{drawing}")
}

/// The picture as an element. The name is markup.
pub fn drawing(name: &str, frames: &Frames) -> String {
    let mut shapes = Shapes::default();
    let mut top = 16;
    if let Some(part) = &frames.part {
        shapes.words(24, top + 12, "bold soft", &format!("{part}; times are in UTC"));
        top += 24;
    }
    let below = lanes::draw(&mut shapes, frames, top);
    let below = ledgers::draw(&mut shapes, frames, below);
    let height = results(&mut shapes, &frames.results, below);
    element(name, &description(frames), height, shapes)
}

fn no_session(name: &str, reason: NoSession) -> String {
    let mut shapes = Shapes::default();
    shapes.words(24, 44, "bold bad", &reason.to_string());
    shapes.words(24, 72, "ink", why(reason));
    element(name, &format!("{reason}. {}", why(reason)), 96, shapes)
}

/// The shapes on an opaque panel, so that the picture reads the same on any page.
fn element(name: &str, description: &str, height: i64, shapes: Shapes) -> String {
    let panel = format!(
        "<rect class=\"page edge\" x=\"1\" y=\"1\" width=\"{}\" height=\"{}\" rx=\"8\" fill=\"#ffffff\" stroke=\"{SOFT}\" stroke-width=\"2\"/>",
        WIDTH - 2,
        height - 2
    );
    format!(
        "<svg xmlns=\"http://www.w3.org/2000/svg\" class=\"trace\" width=\"{WIDTH}\" height=\"{height}\" viewBox=\"0 0 {WIDTH} {height}\" \
         font-family=\"sans-serif\" font-size=\"13\" role=\"img\" aria-labelledby=\"trace-title trace-desc\">\n\
         <title id=\"trace-title\">{name}</title>\n<desc id=\"trace-desc\">{description}</desc>\n<style>{STYLE}</style>\n{panel}\n{}</svg>\n",
        shapes.markup()
    )
}

/// The picture in words: every step with its reply, and the chain.
fn description(frames: &Frames) -> String {
    let step = |(place, frame): (usize, &Frame)| {
        let text = if frame.text.is_empty() { String::new() } else { format!(": {}", frame.text) };
        let refused = if frame.outcome == Outcome::Refused { "refused, " } else { "" };
        let number = frame.number(place);
        markup(&format!("{number} {}, {refused}{}{text}.{}\n", frame.line, frame.reply, stored(frame)))
    };
    let steps: String = (1..).zip(&frames.frames).map(step).collect();
    format!("Time runs from left to right, with a lane for each client.\n{steps}{}", frames.results.join("\n"))
}

/// When a frame's row was stored, and by which process, in a sentence of its own.
fn stored(frame: &Frame) -> String {
    let Some(row) = &frame.row else { return String::new() };
    let time = row.time.as_ref().map(|[day, time]| format!(" at {day} {time} UTC"));
    let process = row.process.as_ref().map(|process| format!(" by {process}"));
    let note = row.note.as_ref().map(|note| format!(", with the note \u{201c}{note}\u{201d}"));
    let parts: String = [time, process, note].into_iter().flatten().collect();
    if parts.is_empty() { parts } else { format!(" Stored{parts}.") }
}

/// The chain, the total and the rounded total, in lines that fit.
fn results(shapes: &mut Shapes, results: &[String; 3], top: i64) -> i64 {
    let mut y = top + 8;
    shapes.line(16, y, WIDTH - 16, y);
    for result in results {
        for line in wrapped(result, (WIDTH - 48) as usize / 8) {
            y += 22;
            shapes.code(24, y, &line);
        }
    }
    y + 18
}

/// The text in lines of at most so many characters, parted at spaces.
fn wrapped(text: &str, most: usize) -> Vec<String> {
    let mut lines = vec![String::new()];
    for word in text.split(' ') {
        let line = lines.last_mut().expect("there is a line from the start");
        if line.is_empty() {
            line.push_str(word);
        } else if line.len() + 1 + word.len() <= most {
            line.push(' ');
            line.push_str(word);
        } else {
            lines.push(format!("  {word}"));
        }
    }
    lines
}
