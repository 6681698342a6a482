//! How the cost of the store grows, compared with plain writes: tables, panels of a picture, and its file.

use plot::{Line, Panel};
use std::fmt::Display;
use std::path::PathBuf;
use std::time::{Duration, Instant};

/// What a program that measures growth is told.
pub struct Options {
    /// How long a point is measured.
    pub seconds: u64,
    /// Where the picture goes.
    pub plot: Option<PathBuf>,
}

/// The options of such a program. Others than these are the program's own, which takes them or not.
pub fn options(words: &[&str], usage: &str, mut own: impl FnMut(&str, &str) -> bool) -> Result<Options, String> {
    let mut options = Options { seconds: 4, plot: None };
    for pair in words.chunks(2) {
        match *pair {
            ["--seconds", text] => {
                options.seconds = text.parse().ok().filter(|&seconds| seconds > 0).ok_or(usage)?;
            }
            ["--plot", text] => options.plot = Some(text.into()),
            [name, text] if own(name, text) => {}
            _ => return Err(usage.into()),
        }
    }
    Ok(options)
}

/// What was measured at a number: writes a second by the store, and plain.
#[derive(Clone, Copy, Debug, PartialEq)]
pub struct Point {
    /// The number.
    pub x: f64,
    /// Writes a second by the store.
    pub store: f64,
    /// Plain writes a second.
    pub plain: f64,
}

impl Point {
    /// How many times as long as a plain write it takes by the store.
    pub fn times(&self) -> f64 {
        self.plain / self.store
    }
}

/// The microseconds of a write at so many a second.
pub fn micros(rate: f64) -> f64 {
    1e6 / rate
}

/// Prints a table over numbers that grow. `rates` measures writes a second by the store, and plain; the table has them as
/// `shown` gives them.
pub fn grow<T: Copy + Display>(
    title: &str,
    unit: &str,
    shown: impl Fn(f64) -> f64,
    numbers: &[T],
    mut rates: impl FnMut(T) -> Result<[f64; 2], String>,
) -> Result<Vec<Point>, String> {
    println!("\n| {title} | Plain, {unit} | Store, {unit} | Store / plain |\n|---|---|---|---|");
    let mut points = Vec::new();
    for &number in numbers {
        let [store, plain] = rates(number)?;
        println!("| {number} | {:.0} | {:.0} | {:.2} |", shown(plain), shown(store), store / plain);
        points.push(Point { x: number.to_string().parse().unwrap_or_default(), store, plain });
    }
    Ok(points)
}

/// A panel of how many times as long as plain inserts it takes.
pub fn panel_of_times(title: &'static str, points: &[Point]) -> Panel {
    let line = |name, y: fn(&Point) -> f64| Line { name, points: points.iter().map(|at| (at.x, y(at))).collect() };
    let lines = vec![line("the store", Point::times), line("plain inserts", |_| 1.0)];
    Panel { title, unit: "times a plain insert", decimals: 2, even: true, lines }
}

/// A panel of the microseconds that each takes.
pub fn panel_of_micros(title: &'static str, unit: &'static str, points: &[Point]) -> Panel {
    let line = |name, y: fn(&Point) -> f64| Line { name, points: points.iter().map(|at| (at.x, y(at))).collect() };
    let lines = vec![line("the store", |at| micros(at.store)), line("plain SQLite", |at| micros(at.plain))];
    Panel { title, unit, decimals: 0, even: true, lines }
}

/// How often what takes long is timed.
const TIMED: usize = 5;

/// The milliseconds that something takes, the median of some times. What it begins with is not part of them.
pub fn millis<T, E>(
    mut before: impl FnMut() -> Result<T, E>,
    mut work: impl FnMut(T) -> Result<(), E>,
) -> Result<f64, E> {
    let mut once = || {
        let thing = before()?;
        let began = Instant::now();
        work(thing)?;
        Ok(began.elapsed())
    };
    let mut times: Vec<Duration> = (0..TIMED).map(|_| once()).collect::<Result<_, E>>()?;
    times.sort();
    Ok(times[TIMED / 2].as_secs_f64() * 1e3)
}

/// Writes the picture, where one is asked for.
pub fn save(options: &Options, panels: &[Panel]) -> Result<(), String> {
    match &options.plot {
        Some(path) => std::fs::write(path, plot::svg(panels)).map_err(|error| format!("{}: {error}", path.display())),
        None => Ok(()),
    }
}

#[cfg(test)]
mod tests {
    use super::*;

    #[test]
    fn options_are_those_of_growth_and_the_programs_own() {
        let mut folder = String::new();
        let words = ["--folder", "/somewhere", "--seconds", "7", "--plot", "a.svg"];
        let mut own = |name: &str, text: &str| {
            folder = text.into();
            name == "--folder"
        };
        let given = options(&words, "usage", &mut own).expect("these are options");
        assert_eq!((given.seconds, given.plot, folder.as_str()), (7, Some("a.svg".into()), "/somewhere"));
        let words: [&[&str]; 5] =
            [&["--seconds", "0"], &["--seconds", "x"], &["--seconds"], &["--folder", "/somewhere"], &["7"]];
        for words in words {
            assert_eq!(options(words, "usage", |_, _| false).err().as_deref(), Some("usage"), "{words:?}");
        }
    }

    #[test]
    fn a_store_of_half_the_writes_takes_twice_as_long() {
        let rates = |number: u64| Ok([500.0 / number as f64, 1_000.0]);
        let points = grow("processes", "µs a write", micros, &[1, 2], rates).expect("no run fails");
        let lines = |panel: Panel| panel.lines.into_iter().map(|line| (line.name, line.points)).collect::<Vec<_>>();
        let times = lines(panel_of_times("processes", &points));
        assert_eq!(times[0], ("the store", vec![(1.0, 2.0), (2.0, 4.0)]));
        assert_eq!(times[1], ("plain inserts", vec![(1.0, 1.0), (2.0, 1.0)]));
        let micros = lines(panel_of_micros("processes", "µs a write", &points));
        assert_eq!(micros[0], ("the store", vec![(1.0, 2_000.0), (2.0, 4_000.0)]));
        assert_eq!(micros[1], ("plain SQLite", vec![(1.0, 1_000.0), (2.0, 1_000.0)]));
        assert_eq!(grow("processes", "", |rate| rate, &[1], |_| Err("it fails".into())), Err("it fails".into()));
    }

    #[test]
    fn a_median_has_nothing_of_what_it_begins_with() {
        let pause = |time: u64| {
            std::thread::sleep(Duration::from_millis(time));
            Ok::<_, ()>(())
        };
        let took = millis(|| pause(100), |()| pause(2)).expect("nothing fails");
        assert!((2.0..100.0).contains(&took), "{took}");
        assert_eq!(millis(|| Ok(()), |()| Err("it fails")), Err("it fails"));
    }
}
