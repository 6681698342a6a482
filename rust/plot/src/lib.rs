//! Small plots of how cost grows, as SVG. They have a white background, so that they can be read on any page.

use std::fmt::Write;

/// A line: its name and its points.
pub struct Line {
    /// What it shows.
    pub name: &'static str,
    /// The points, by rising x.
    pub points: Vec<(f64, f64)>,
}

/// A panel: a title for x, the unit of y, and lines over it.
pub struct Panel {
    /// What x counts.
    pub title: &'static str,
    /// What y counts.
    pub unit: &'static str,
    /// How many decimals y has.
    pub decimals: usize,
    /// Whether the points are equally far apart, each with its x below it, and not on a scale.
    pub even: bool,
    /// The lines.
    pub lines: Vec<Line>,
}

const WIDTH: f64 = 360.0;
const HEIGHT: f64 = 260.0;
const MARGIN: f64 = 60.0;
/// How many panels are beside each other.
const BESIDE: usize = 2;
const COLOURS: [&str; 5] = ["#1b6ca8", "#c0392b", "#7f8c8d", "#27862f", "#8e44ad"];

/// The panels, two in a row: with one legend below them where all have the lines of the same names, or else with one for each.
pub fn svg(panels: &[Panel]) -> String {
    let (columns, rows) = (panels.len().min(BESIDE), panels.len().div_ceil(BESIDE));
    let below = HEIGHT + 1.5 * MARGIN;
    let (width, height) = ((WIDTH + MARGIN) * columns as f64 + MARGIN, below * rows as f64 + MARGIN);
    let mut text = format!(
        "<svg xmlns='http://www.w3.org/2000/svg' width='{width}' height='{height}' \
         font-family='sans-serif' font-size='12'>\n<rect width='100%' height='100%' fill='white'/>\n"
    );
    let alike = panels.iter().all(|panel| names(panel).eq(panels.iter().take(1).flat_map(names)));
    for (index, each) in panels.iter().enumerate() {
        let (column, row) = ((index % BESIDE) as f64, (index / BESIDE) as f64);
        let (left, top) = (MARGIN + column * (WIDTH + MARGIN), MARGIN / 2.0 + row * below);
        panel(&mut text, each, left, top);
        if !alike {
            legend(&mut text, each, left, top + HEIGHT + 56.0, WIDTH / 4.0);
        }
    }
    if let Some(first) = panels.first().filter(|_| alike) {
        legend(&mut text, first, MARGIN, height - 20.0, 160.0);
    }
    text + "</svg>\n"
}

fn names(panel: &Panel) -> impl Iterator<Item = &str> {
    panel.lines.iter().map(|line| line.name)
}

/// The colours of a panel's lines, so far apart.
fn legend(text: &mut String, panel: &Panel, left: f64, y: f64, apart: f64) {
    for (index, (name, colour)) in names(panel).zip(COLOURS.iter().cycle()).enumerate() {
        let x = left + index as f64 * apart;
        let _ = writeln!(text, "<rect x='{x}' y='{}' width='20' height='4' fill='{colour}'/>", y - 6.0);
        let _ = writeln!(text, "<text x='{}' y='{y}'>{name}</text>", x + 26.0);
    }
}

/// Where a panel's points are along x, each with the number that is written there.
fn ticks(panel: &Panel, most: f64) -> Vec<(f64, f64)> {
    if !panel.even {
        return [0.0, 0.25, 0.5, 0.75, 1.0].map(|part| (part, part * most)).into();
    }
    let all: Vec<f64> = panel.lines.iter().take(1).flat_map(|line| &line.points).map(|point| point.0).collect();
    let last = all.len().saturating_sub(1).max(1) as f64;
    all.into_iter().enumerate().map(|(index, x)| (index as f64 / last, x)).collect()
}

fn panel(text: &mut String, panel: &Panel, left: f64, top: f64) {
    let points = || panel.lines.iter().flat_map(|line| &line.points);
    let most = |of: fn(&(f64, f64)) -> f64| points().map(of).fold(f64::MIN_POSITIVE, f64::max);
    let (most_x, most_y) = (most(|point| point.0), most(|point| point.1));
    let (bottom, decimals, ticks) = (top + HEIGHT, panel.decimals, ticks(panel, most_x));
    for part in [0.0, 0.25, 0.5, 0.75, 1.0] {
        let (y, x) = (bottom - part * HEIGHT, left - 4.0);
        let _ = writeln!(text, "<path d='M{left} {y}h{WIDTH}' stroke='#ddd'/>");
        let _ = writeln!(text, "<text x='{x}' y='{}' text-anchor='end'>{:.decimals$}</text>", y + 4.0, part * most_y);
    }
    for (part, x) in &ticks {
        let at = left + part * WIDTH;
        let _ = writeln!(text, "<text x='{at}' y='{}' text-anchor='middle'>{x}</text>", bottom + 16.0);
    }
    let (middle, below) = (left + WIDTH / 2.0, bottom + 36.0);
    let _ = writeln!(text, "<text x='{middle}' y='{below}' text-anchor='middle'>{}</text>", panel.title);
    let _ = writeln!(text, "<text x='{}' y='{}'>{}</text>", left - 40.0, top - 12.0, panel.unit);
    for (line, colour) in panel.lines.iter().zip(COLOURS.iter().cycle()) {
        let place = |point: &(f64, f64)| {
            let even = ticks.iter().find(|(_, x)| panel.even && *x == point.0).map(|(part, _)| *part);
            let x = even.unwrap_or(point.0 / most_x);
            format!("{:.1},{:.1}", left + x * WIDTH, bottom - point.1 / most_y * HEIGHT)
        };
        let places: Vec<String> = line.points.iter().map(place).collect();
        let _ =
            writeln!(text, "<polyline points='{}' fill='none' stroke='{colour}' stroke-width='2'/>", places.join(" "));
    }
}

#[cfg(test)]
mod tests {
    use super::*;

    fn panel(title: &'static str, names: &[&'static str]) -> Panel {
        let lines = names.iter().map(|&name| Line { name, points: vec![(1.0, 2.0), (3.0, 4.0)] }).collect();
        Panel { title, unit: "ms", decimals: 0, even: true, lines }
    }

    fn count(panels: &[Panel], text: &str) -> usize {
        svg(panels).matches(text).count()
    }

    #[test]
    fn one_legend_where_all_lines_are_alike() {
        let panels = [panel("rows", &["store", "plain"]), panel("logs", &["store", "plain"])];
        for name in [">rows<", ">logs<", ">store<", ">plain<"] {
            assert_eq!(count(&panels, name), 1, "{name}");
        }
    }

    #[test]
    fn a_legend_for_each_where_they_are_not() {
        let panels = [panel("rows", &["store", "plain"]), panel("logs", &["store"]), panel("entries", &["check"])];
        for (name, expected) in [(">store<", 2), (">plain<", 1), (">check<", 1), ("<polyline", 4)] {
            assert_eq!(count(&panels, name), expected, "{name}");
        }
    }
}
