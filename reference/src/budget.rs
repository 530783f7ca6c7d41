//! Runs of the comparison: within a time budget, and once for each seeded fault.

use crate::cases::{self, Case};
use crate::compare::{redraw_is_render, same_call, seeded, Reference, Renderer, CHECKS};
use crate::fault::{Fault, ALL};
use crate::print::{self, Style};
use crate::random::Random;
use crate::step::Region;
use crate::sums::{in_linear_light, source, EDIT, GLOW, KEY, RELIEF, SEED, SHADOW, SIDE};
use std::time::{Duration, Instant};

/// Comparisons made, and what went wrong in some of them.
#[derive(Default)]
pub struct Tally {
    pub passed: usize,
    pub failed: usize,
    shown: usize,
}

impl Tally {
    /// Counts `checks` comparisons of a case and shows the first few failures.
    pub fn add(&mut self, name: &str, checks: usize, failures: &[String]) {
        self.failed += failures.len();
        self.passed += checks - failures.len();
        for failure in failures {
            self.shown += 1;
            if self.shown <= 20 {
                println!("{name}: {failure}");
            }
        }
    }
}

/// The large sheets, each in sRGB and in linear light.
const LARGE: u64 = 8;

/// A case at 1,024 × 1,024: the large sheets, then random ones of a few steps.
fn large(seed: u64) -> Case {
    let mut random = Random::new(seed ^ 0x1024);
    let pixels = SIDE * SIDE;
    let steps = match seed {
        0 => SHADOW.into(),
        1 => GLOW.into(),
        2 => KEY.into(),
        3 => RELIEF.into(),
        4 => in_linear_light(SHADOW).into(),
        5 => in_linear_light(GLOW).into(),
        6 => in_linear_light(KEY).into(),
        7 => in_linear_light(RELIEF).into(),
        _ => print::steps(&cases::sheet(&mut random, 3, SIDE, SIDE, false), Style::default()).into_bytes(),
    };
    let count = steps.iter().filter(|byte| **byte == b'\n').count();
    let (x, y) = (random.below(SIDE), random.below(SIDE));
    let near = Region { x, y, width: random.below(SIDE - x).min(40), height: random.below(SIDE - y).min(40) };
    let source = if seed < LARGE { source(SEED, pixels) } else { cases::picture(&mut random, pixels) };
    let rect = if seed < LARGE { EDIT } else { near };
    Case {
        width: SIDE,
        height: SIDE,
        steps,
        rect,
        source,
        workspace: vec![0; 4 * pixels * count],
        scratch: vec![1; 8 * pixels],
    }
}

fn large_failures(renderer: &dyn Renderer, seed: u64) -> Vec<String> {
    let case = large(seed);
    let results = [same_call(renderer, &case, false), redraw_is_render(renderer, &case, &mut Random::new(seed))];
    results.into_iter().filter_map(Result::err).collect()
}

/// Seeded cases until the time is over, about a third of it on large ones; at least the large sheets and a few hundred small
/// ones.
pub fn compare(renderer: &dyn Renderer, seconds: u64, seed: u64) -> Tally {
    let mut tally = Tally::default();
    let (start, time) = (Instant::now(), Duration::from_secs(seconds));
    let mut on_large = Duration::ZERO;
    let (mut small, mut big) = (0, 0);
    while big < LARGE || start.elapsed() < time {
        if big < LARGE || 3 * on_large <= start.elapsed() {
            let began = Instant::now();
            tally.add(&format!("large case {big}"), 2, &large_failures(renderer, big));
            on_large += began.elapsed();
            big += 1;
        }
        for _ in 0..100 {
            let name = seed.wrapping_add(small);
            tally.add(&format!("case {name}"), CHECKS, &seeded(renderer, name));
            small += 1;
        }
    }
    println!("{small} small cases, {big} at 1024 x 1024, {} s", start.elapsed().as_secs());
    tally
}

/// The first seeded case that shows a fault, and what it shows; nothing where `cases` of them do not.
pub fn find(fault: Fault, cases: u64) -> Option<(u64, String)> {
    (0..cases).find_map(|seed| seeded(&Reference(fault), seed).into_iter().next().map(|failure| (seed, failure)))
}

/// Tries every fault: a line for each; how many were found, how many missed.
pub fn faults(cases: u64) -> (usize, usize) {
    let mut found = 0;
    for (fault, text) in ALL {
        match find(*fault, cases) {
            Some((seed, failure)) => {
                found += 1;
                let short: String = failure.chars().take(90).collect();
                println!("found by case {seed}: {text} ({short})");
            }
            None => println!("MISSED: {text}"),
        }
    }
    (found, ALL.len() - found)
}
