//! The shapes of the picture, with the colours of a light page; the style has those of a dark one.

use crate::escape::markup;
use std::fmt::Write;

/// The picture's width.
pub const WIDTH: i64 = 960;
/// Lines and quiet words.
pub const SOFT: &str = "#4a525b";
const INK: &str = "#16191d";
const BAD: &str = "#a3180f";

/// The colour of a client, and that of words on it: those of Okabe and Ito, told apart with any colour vision.
fn colours(client: u64) -> (&'static str, &'static str) {
    match client % 8 {
        0 => ("#0072b2", "#ffffff"),
        1 => ("#e69f00", "#000000"),
        2 => ("#009e73", "#000000"),
        3 => ("#cc79a7", "#000000"),
        4 => ("#56b4e9", "#000000"),
        5 => ("#f0e442", "#000000"),
        6 => ("#999999", "#000000"),
        _ => ("#d55e00", "#000000"),
    }
}

/// A rectangle's place and size.
#[derive(Clone, Copy, Debug)]
pub struct Area(pub i64, pub i64, pub i64, pub i64);

impl Area {
    fn attributes(self) -> String {
        let Area(x, y, width, height) = self;
        format!("x=\"{x}\" y=\"{y}\" width=\"{width}\" height=\"{height}\"")
    }
}

/// The room that the word of a stage takes, with some around it, in the fonts that programs have for sans-serif. Where a
/// client writes it is larger and bold.
pub fn stage_room(word: &str, classes: &str) -> i64 {
    let halves: i64 = word.chars().map(|letter| if "filrt ".contains(letter) { 7 } else { 13 }).sum();
    if classes.starts_with("write") { halves * 2 / 3 + 8 } else { halves / 2 + 8 }
}

/// What is drawn so far.
#[derive(Default)]
pub struct Shapes(String);

impl Shapes {
    /// All shapes.
    pub fn markup(self) -> String {
        self.0
    }

    /// Words that begin here. Their look: `ink`, `soft` or `bad`, and before it `bold`.
    pub fn words(&mut self, x: i64, y: i64, look: &str, text: &str) {
        let (weight, colour) = look.strip_prefix("bold ").map_or(("", look), |rest| (" font-weight=\"bold\"", rest));
        let fill = match colour {
            "bad" => BAD,
            "soft" => SOFT,
            _ => INK,
        };
        let _ = writeln!(
            self.0,
            "<text class=\"{colour}\" x=\"{x}\" y=\"{y}\" fill=\"{fill}\"{weight}>{}</text>",
            markup(text)
        );
    }

    /// Words of a fixed width.
    pub fn code(&mut self, x: i64, y: i64, text: &str) {
        let _ = writeln!(
            self.0,
            "<text class=\"ink\" x=\"{x}\" y=\"{y}\" fill=\"{INK}\" font-family=\"monospace\" font-weight=\"bold\" xml:space=\"preserve\">{}</text>",
            markup(text)
        );
    }

    /// A quiet line.
    pub fn line(&mut self, x: i64, y: i64, to_x: i64, to_y: i64) {
        let _ =
            writeln!(self.0, "<path class=\"edge\" d=\"M{x} {y}L{to_x} {to_y}\" stroke=\"{SOFT}\" opacity=\"0.5\"/>");
    }

    /// A step's box, with its line above its reply. A refused one is filled, and its line struck out.
    pub fn step(&mut self, area: Area, line: &str, reply: &str, refused: bool) {
        let Area(x, y, width, _) = area;
        let (class, fill, ink) = if refused { ("bad", BAD, "#ffffff") } else { ("shade", "#eceff2", INK) };
        let (words, struck) = if refused { ("on-bad", " text-decoration=\"line-through\"") } else { ("ink", "") };
        let middle = x + width / 2;
        let _ = writeln!(self.0, "<rect class=\"{class}\" {} rx=\"3\" fill=\"{fill}\"/>", area.attributes());
        let _ = writeln!(
            self.0,
            "<g class=\"{words}\" fill=\"{ink}\" text-anchor=\"middle\" font-weight=\"bold\"><text x=\"{middle}\" y=\"{}\" font-family=\"monospace\" font-size=\"12\"{struck}>{}</text>\
             <text x=\"{middle}\" y=\"{}\" font-size=\"12\">{}</text></g>",
            y + 15,
            markup(line),
            y + 31,
            markup(reply),
        );
    }

    /// A client's stage over some steps: filled where it writes, hatched where its ledger is fenced, else a band.
    pub fn stage(&mut self, area: Area, client: u64, word: &str, classes: &str) {
        let Area(x, y, width, height) = area;
        let (fill, on) = colours(client);
        match classes {
            "write" => {
                let _ = writeln!(self.0, "<rect {} fill=\"{fill}\"/>", area.attributes());
                let _ = writeln!(
                    self.0,
                    "<text x=\"{}\" y=\"{}\" fill=\"{on}\" font-size=\"12\" font-weight=\"bold\">{word}</text>",
                    x + 4,
                    y + 14
                );
            }
            "write cut" => {
                let _ =
                    writeln!(self.0, "<rect class=\"page\" {} fill=\"#ffffff\" stroke=\"{fill}\"/>", area.attributes());
                self.hatch(area, fill);
                let plate = Area(x + 2, y + 2, stage_room(word, classes), height - 4);
                let _ = writeln!(self.0, "<rect class=\"page\" {} fill=\"#ffffff\"/>", plate.attributes());
                let _ = writeln!(
                    self.0,
                    "<text class=\"ink\" x=\"{}\" y=\"{}\" fill=\"{INK}\" font-size=\"12\" font-weight=\"bold\">{word}</text>",
                    x + 4,
                    y + 14
                );
            }
            _ => {
                let _ = writeln!(self.0, "<rect class=\"shade\" {} fill=\"#eceff2\"/>", area.attributes());
                let _ = writeln!(self.0, "<rect {} fill=\"{fill}\"/>", Area(x, y, width, 4).attributes());
                let _ = writeln!(
                    self.0,
                    "<text class=\"ink\" x=\"{}\" y=\"{}\" fill=\"{INK}\" font-size=\"11\">{word}</text>",
                    x + 3,
                    y + 15
                );
            }
        }
    }

    /// Slanted lines over an area.
    fn hatch(&mut self, Area(x, y, width, height): Area, colour: &str) {
        let stroke = |place: i64| {
            // What would stand out at either side is cut off.
            let (from, to) = ((8 * place).max(0), (8 * place + height).min(width));
            format!("M{} {}L{} {}", x + from, y + height - (from - 8 * place), x + to, y + height - (to - 8 * place))
        };
        let strokes: String = (1 - height / 8..width / 8).map(stroke).collect();
        let _ = writeln!(self.0, "<path d=\"{strokes}\" stroke=\"{colour}\" stroke-width=\"2\"/>");
    }

    /// An entry, or a client's number: words on the client's colour. Clients from 8 on have a bar before them.
    pub fn chip(&mut self, area: Area, client: u64, text: &str) {
        let (fill, on) = colours(client);
        let Area(x, y, width, height) = area;
        let _ = writeln!(self.0, "<rect {} rx=\"3\" fill=\"{fill}\"/>", area.attributes());
        if client >= 8 {
            let _ = writeln!(self.0, "<rect {} fill=\"{on}\"/>", Area(x + 2, y + 2, 2, height - 4).attributes());
        }
        let _ = writeln!(
            self.0,
            "<text x=\"{}\" y=\"{}\" fill=\"{on}\" text-anchor=\"middle\" font-family=\"monospace\" font-weight=\"bold\">{}</text>",
            x + width / 2,
            y + 15,
            markup(text)
        );
    }

    /// The frame of a ledger: filled where it is closed, dashed where it is recovering, open to the right where it is
    /// open, with a hatched fence at its right where it is fenced.
    pub fn ledger(&mut self, area: Area, open: bool, fenced: bool, recovering: bool) {
        let Area(x, y, width, height) = area;
        if !open && !recovering {
            let _ = writeln!(self.0, "<rect class=\"shade\" {} fill=\"#eceff2\"/>", area.attributes());
        }
        let dash = if recovering { " stroke-dasharray=\"7 4\"" } else { "" };
        let right = if open { "" } else { "z" };
        let _ = writeln!(
            self.0,
            "<path class=\"edge\" d=\"M{} {y}H{x}V{}H{}{right}\" fill=\"none\" stroke=\"{SOFT}\" stroke-width=\"2\"{dash}/>",
            x + width,
            y + height,
            x + width
        );
        if fenced {
            let post = Area(x + width, y - 5, 10, height + 10);
            let _ = writeln!(
                self.0,
                "<rect class=\"page post\" {} fill=\"#ffffff\" stroke=\"{INK}\" stroke-width=\"2\"/>",
                post.attributes()
            );
            let bars: String =
                (0..post.3 / 8).map(|place| format!("M{} {}l10 -8", post.0, post.1 + 8 + 8 * place)).collect();
            let _ = writeln!(self.0, "<path class=\"post\" d=\"{bars}\" stroke=\"{INK}\" stroke-width=\"3\"/>");
        }
    }
}

#[cfg(test)]
mod tests {
    use super::colours;

    // A client has the same colour on a page and in a picture.
    #[test]
    fn colours_are_those_of_the_page() {
        let style = include_str!("../page.css");
        for client in 0..8 {
            let (fill, on) = colours(client);
            let rule = format!(".c{client}, .c{} {{ --fill: {fill}; --on: {on}; }}", client + 8);
            assert!(style.contains(&rule), "{rule}");
            assert_eq!(colours(client + 8), (fill, on));
        }
    }
}
