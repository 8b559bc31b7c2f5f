//! Figures of several runs: how runs take turns, and what is printed of them.

use std::fmt;
use std::io;

/// What each of some measurements gave, run by run.
pub type Runs<T> = Vec<Vec<T>>;

/// Makes each of `count` measurements once a turn, so that what else the machine does falls on all of them; every other turn
/// goes the other way round.
pub fn take_turns<T>(turns: usize, count: usize, mut measure: impl FnMut(usize) -> io::Result<T>) -> io::Result<Runs<T>> {
    let mut runs: Runs<T> = (0..count).map(|_| Vec::new()).collect();
    for turn in 0..turns {
        for step in 0..count {
            let at = if turn % 2 == 0 { step } else { count - 1 - step };
            runs[at].push(measure(at)?);
        }
    }
    Ok(runs)
}

/// Median, least and greatest of some figures; printed as `1.25 (1.21 to 1.32)`, with as many places as are asked for.
pub struct Spread {
    pub least: f64,
    pub median: f64,
    pub greatest: f64,
}

impl Spread {
    /// Of at least one figure.
    pub fn of(figures: impl IntoIterator<Item = f64>) -> Spread {
        let mut sorted: Vec<f64> = figures.into_iter().collect();
        sorted.sort_by(f64::total_cmp);
        let middle = (sorted[(sorted.len() - 1) / 2] + sorted[sorted.len() / 2]) / 2.0;
        Spread { least: sorted[0], median: middle, greatest: sorted[sorted.len() - 1] }
    }

    /// Of how many times the other's each run's figure is, turn by turn.
    pub fn of_ratios(figures: &[f64], others: &[f64]) -> Spread {
        Spread::of(figures.iter().zip(others).map(|(figure, other)| figure / other))
    }
}

impl fmt::Display for Spread {
    fn fmt(&self, f: &mut fmt::Formatter<'_>) -> fmt::Result {
        let places = f.precision().unwrap_or(2);
        write!(f, "{:.places$} ({:.places$} to {:.places$})", self.median, self.least, self.greatest)
    }
}

/// The figure that so many of a thousand don't exceed, of figures that are sorted.
pub fn per_mille(sorted: &[f64], part: usize) -> f64 {
    sorted[(sorted.len() * part / 1_000).min(sorted.len() - 1)]
}
