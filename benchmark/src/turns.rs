//! Runs that take turns, so that what disturbs the machine disturbs them alike.
use crate::clock;
use std::time::{Duration, Instant};

const LONGEST: Duration = Duration::from_millis(400);
const FEWEST: usize = 20;

/// What each turn of a run took, in milliseconds.
pub struct Times(Vec<f64>);

fn middle(sorted: &[f64], part: f64) -> f64 {
    sorted[((sorted.len() - 1) as f64 * part).round() as usize]
}

impl Times {
    pub fn best(&self) -> f64 {
        self.0.iter().copied().fold(f64::INFINITY, f64::min)
    }

    /// The median of how much longer this took than the other in the same turn, and that median's standard error, from
    /// the quartiles as for a normal distribution.
    pub fn longer_than(&self, other: &Times) -> (f64, f64) {
        let mut differences: Vec<f64> = self.0.iter().zip(&other.0).map(|(a, b)| a - b).collect();
        differences.sort_by(f64::total_cmp);
        let spread = (middle(&differences, 0.75) - middle(&differences, 0.25)) / 1.349;
        (middle(&differences, 0.5), 1.2533 * spread / (differences.len() as f64).sqrt())
    }
}

fn timed(run: &mut dyn FnMut()) -> f64 {
    let start = clock::now();
    run();
    (clock::now() - start).as_secs_f64() * 1e3
}

/// At least 20 turns and 0.4 s.
pub fn take_turns<const N: usize>(runs: [&mut dyn FnMut(); N]) -> [Times; N] {
    take_turns_for(LONGEST, runs)
}

pub fn take_turns_for<const N: usize>(longest: Duration, mut runs: [&mut dyn FnMut(); N]) -> [Times; N] {
    let mut times = [(); N].map(|()| Times(Vec::new()));
    let start = Instant::now();
    while times[0].0.len() < FEWEST || start.elapsed() < longest {
        for (run, times) in runs.iter_mut().zip(&mut times) {
            times.0.push(timed(run));
        }
    }
    times
}

#[cfg(test)]
mod tests {
    use super::Times;

    #[test]
    fn the_best_and_the_median_difference() {
        let (a, b) = (Times(vec![3.0, 2.0, 9.0, 4.0, 5.0]), Times(vec![1.0, 1.0, 1.0, 1.0, 1.0]));
        assert_eq!(a.best(), 2.0);
        let (median, error) = a.longer_than(&b);
        assert_eq!(median, 3.0);
        assert!((error - 1.2533 * (2.0 / 1.349) / 5_f64.sqrt()).abs() < 1e-9);
    }
}
