//! Times several candidates in turn, round by round, so that whatever slows the machine slows them all.

use std::time::{Duration, Instant};

/// Something to time: a name, and a function that does it so many times.
pub struct Candidate<'a> {
    /// What it is.
    pub name: &'static str,
    /// Does it so many times.
    pub run: Box<dyn FnMut(u32) + 'a>,
}

impl<'a> Candidate<'a> {
    /// A candidate that does this once each time.
    pub fn new(name: &'static str, mut once: impl FnMut() + 'a) -> Self {
        let run = move |times: u32| (0..times).for_each(|_| once());
        Candidate { name, run: Box::new(run) }
    }
}

/// The quartiles of some numbers.
#[derive(Clone, Copy, Debug, PartialEq)]
pub struct Spread {
    /// A quarter is below it.
    pub low: f64,
    /// Half is below it.
    pub median: f64,
    /// A quarter is above it.
    pub high: f64,
}

impl Spread {
    /// The quartiles of these, which aren't empty.
    pub fn of(mut numbers: Vec<f64>) -> Self {
        numbers.sort_by(f64::total_cmp);
        let at = |part: f64| numbers[((numbers.len() - 1) as f64 * part).round() as usize];
        Spread { low: at(0.25), median: at(0.5), high: at(0.75) }
    }
}

/// What a candidate took in each round.
pub struct Taken {
    /// What it is.
    pub name: &'static str,
    /// Nanoseconds for one.
    pub nanoseconds: Vec<f64>,
}

impl Taken {
    /// What is left, round by round, when another's time is taken away.
    pub fn less(mut self, other: &Taken) -> Taken {
        self.nanoseconds.iter_mut().zip(&other.nanoseconds).for_each(|(time, other)| *time -= other);
        self
    }
}

/// A row of the table: the same operation by the library at each placement, and by others.
pub struct Row<'a> {
    /// The log that it is on.
    pub log: &'static str,
    /// What is done.
    pub operation: &'static str,
    /// The library's, at each placement.
    pub placed: Vec<Candidate<'a>>,
    /// What is taken away from these, placement by placement; none, or as many.
    pub less: Vec<Candidate<'a>>,
    /// The others.
    pub others: Vec<Candidate<'a>>,
}

/// What the library took at its placements, in nanoseconds: the least, the middle and the greatest of the medians.
#[derive(Debug, PartialEq)]
pub struct Placements {
    /// At the best placement.
    pub best: f64,
    /// At the one in the middle.
    pub median: f64,
    /// At the worst placement.
    pub worst: f64,
    /// The worst over the best.
    pub spread: f64,
}

/// What another took, in nanoseconds, and the library's time at its worst placement over it, taken within each round.
pub struct Other {
    /// What it is.
    pub name: &'static str,
    /// Nanoseconds for one.
    pub nanoseconds: Spread,
    /// The ratio.
    pub ratio: Spread,
}

fn time(candidate: &mut Candidate, times: u32) -> Duration {
    let start = Instant::now();
    (candidate.run)(times);
    start.elapsed()
}

/// How many times make a slice long enough for the clock.
fn calibrate(candidate: &mut Candidate, slice: Duration) -> u32 {
    let mut times = 1;
    while time(candidate, times) < slice && times < 1 << 24 {
        times *= 2;
    }
    times
}

/// The order of a round: each candidate goes first in its turn, so that none always runs in the same one's wake.
fn order(round: usize, count: usize) -> impl Iterator<Item = usize> {
    (0..count).map(move |place| (round + place) % count)
}

/// Times the candidates in turn, for so many rounds of one slice each.
pub fn interleaved(mut candidates: Vec<Candidate>, rounds: usize, slice: Duration) -> Vec<Taken> {
    let times: Vec<u32> = candidates.iter_mut().map(|candidate| calibrate(candidate, slice)).collect();
    let mut taken: Vec<Taken> =
        candidates.iter().map(|candidate| Taken { name: candidate.name, nanoseconds: vec![] }).collect();
    for round in 0..rounds {
        for index in order(round, candidates.len()) {
            let nanoseconds = time(&mut candidates[index], times[index]).as_nanos() as f64;
            taken[index].nanoseconds.push(nanoseconds / times[index] as f64);
        }
    }
    taken
}

fn median(taken: &Taken) -> f64 {
    Spread::of(taken.nanoseconds.clone()).median
}

/// One's time over another's, within each round.
fn ratio(one: &Taken, other: &Taken) -> Spread {
    Spread::of(one.nanoseconds.iter().zip(&other.nanoseconds).map(|(one, other)| one / other).collect())
}

/// Times a row, all candidates in turn.
pub fn measured(row: Row, rounds: usize, slice: Duration) -> (Placements, Vec<Other>) {
    let (count, less) = (row.placed.len(), row.less.len());
    let mut taken = interleaved(row.placed.into_iter().chain(row.less).chain(row.others).collect(), rounds, slice);
    let others = taken.split_off(count + less);
    let less = taken.split_off(count);
    if !less.is_empty() {
        taken = taken.into_iter().zip(&less).map(|(taken, less)| taken.less(less)).collect();
    }
    summed_up(taken, &others)
}

fn summed_up(mut placed: Vec<Taken>, others: &[Taken]) -> (Placements, Vec<Other>) {
    placed.sort_by(|one, other| median(one).total_cmp(&median(other)));
    let (best, worst) = (&placed[0], &placed[placed.len() - 1]);
    let placements = Placements {
        best: median(best),
        median: median(&placed[placed.len() / 2]),
        worst: median(worst),
        spread: median(worst) / median(best),
    };
    let other = |each: &Taken| Other {
        name: each.name,
        nanoseconds: Spread::of(each.nanoseconds.clone()),
        ratio: ratio(worst, each),
    };
    (placements, others.iter().map(other).collect())
}

#[cfg(test)]
mod tests {
    use super::*;

    #[test]
    fn each_goes_first_in_its_turn() {
        let orders: Vec<Vec<usize>> = (0..4).map(|round| order(round, 3).collect()).collect();
        assert_eq!(orders, [[0, 1, 2], [1, 2, 0], [2, 0, 1], [0, 1, 2]]);
    }

    #[test]
    fn differences_and_ratios_are_taken_within_a_round() {
        let taken = |nanoseconds: &[f64]| Taken { name: "", nanoseconds: nanoseconds.to_vec() };
        let left = taken(&[5.0, 9.0, 7.0]).less(&taken(&[1.0, 5.0, 1.0]));
        assert_eq!(left.nanoseconds, [4.0, 4.0, 6.0]);
        let placed = vec![left, taken(&[2.0, 2.0, 1.0]), taken(&[3.0, 3.0, 3.0])];
        let (placements, others) = summed_up(placed, &[taken(&[2.0, 4.0, 1.0])]);
        assert_eq!(placements, Placements { best: 2.0, median: 3.0, worst: 4.0, spread: 2.0 });
        assert_eq!(others[0].ratio, Spread { low: 2.0, median: 2.0, high: 6.0 });
        assert_eq!(others[0].nanoseconds, Spread { low: 2.0, median: 2.0, high: 4.0 });
    }

    #[test]
    fn quartiles() {
        let spread = Spread::of(vec![5.0, 1.0, 4.0, 2.0, 3.0]);
        assert_eq!(spread, Spread { low: 2.0, median: 3.0, high: 4.0 });
    }
}
