//! The rules of a sheet (docs/RULES.md) written for speed in plain Rust: what the proved renderer is measured beside.
//!
//! It does what a call of the renderer does: it reads the step lines, checks sizes, rectangle and pixels, draws, and clears
//! the scratch buffer. Unlike the renderer it trusts its step lines. No vector instructions are written out; the compiler
//! finds them in loops over arrays, as it does for the renderer.
mod arith;
mod blur;
mod chunk;
mod composite;
pub mod convolve;
pub mod curve;
mod damage;
mod draw;
mod inputs;
pub mod kernel;
mod lines;
mod matrix;
mod morph;
mod read;
mod rect;
mod scan;
mod short;
pub mod space;
mod step;
#[cfg(test)]
pub mod tests;
mod tile;

use crate::calls::{Answer, Call, Region, Renderer};
use inputs::{is_converted, Inputs};
pub use read::units;
use rect::Rect;
use space::Conversion;
use step::Step;

pub struct Plain;

/// Checks 1 to 6.
fn sizes(call: &Call, steps: usize, changed: Option<Region>) -> u64 {
    let side = |n: usize| (1..=1024).contains(&n);
    if !side(call.width) || !side(call.height) {
        return 1;
    }
    let size = 4 * call.width * call.height;
    let outside = changed.is_some_and(|r| r.x + r.width > call.width || r.y + r.height > call.height);
    let wrong = [
        (2, call.source.len() != size),
        (3, steps == 0 || steps > 64),
        (4, call.workspace.len() != size * steps),
        (5, call.scratch.len() != 2 * size),
        (6, outside),
    ];
    wrong.into_iter().find(|(_, wrong)| *wrong).map_or(0, |(number, _)| number)
}

/// The steps, or the refusal.
fn checked(call: &Call, changed: Option<Region>) -> Result<Vec<Step>, Answer> {
    let steps = read::steps(call.steps);
    let number = sizes(call, steps.len(), changed);
    if number != 0 {
        return Err(Answer { number, place: 0, count: 0 });
    }
    let workspace = || changed.and_then(|_| scan::first_invalid(call.workspace));
    match scan::first_invalid(call.source).or_else(workspace) {
        Some(pixel) => Err(Answer { number: 14, place: pixel as u64, count: 0 }),
        None => Ok(steps),
    }
}

/// Layer n, and what stands at the inputs of its step.
fn parted<'a>(call: &'a mut Call, steps: &'a [Step], n: usize) -> (Inputs<'a>, &'a mut [u8], &'a mut [u8]) {
    let size = call.source.len();
    let (layers, rest) = call.workspace.split_at_mut(size * n);
    let Step { space, inputs, .. } = &steps[n];
    let converts = inputs.iter().any(|input| is_converted(*input, steps, *space));
    let conversion = converts.then(|| Conversion::new(*space));
    let (width, height, source) = (call.width, call.height, call.source);
    (Inputs { width, height, source, layers, steps, space: *space, conversion }, &mut rest[..size], call.scratch)
}

/// Clears what a region leaves of its layer.
fn clear_outside(out: &mut [u8], width: usize, region: Rect) {
    for (y, row) in out.chunks_exact_mut(4 * width).enumerate() {
        if region.is_empty() || !region.rows().contains(&y) {
            row.fill(0);
        } else {
            row[..4 * region.left as usize].fill(0);
            row[4 * region.right as usize..].fill(0);
        }
    }
}

impl Renderer for Plain {
    fn render(&self, mut call: Call) -> Answer {
        let steps = match checked(&call, None) {
            Ok(steps) => steps,
            Err(answer) => return answer,
        };
        for (n, step) in steps.iter().enumerate() {
            let (inputs, out, scratch) = parted(&mut call, &steps, n);
            clear_outside(out, inputs.width, step.region);
            draw::draw(step, step.region, &inputs, out, scratch);
        }
        call.scratch.fill(0);
        Answer::default()
    }

    fn redraw(&self, mut call: Call, changed: Region) -> Answer {
        let steps = match checked(&call, Some(changed)) {
            Ok(steps) => steps,
            Err(answer) => return answer,
        };
        let rects = damage::rectangles(&steps, Rect::new(changed.x, changed.y, changed.width, changed.height));
        for (n, (step, rect)) in steps.iter().zip(&rects).enumerate() {
            let (inputs, out, scratch) = parted(&mut call, &steps, n);
            draw::draw(step, *rect, &inputs, out, scratch);
        }
        call.scratch.fill(0);
        Answer { count: rects.iter().map(|rect| rect.area()).sum(), ..Answer::default() }
    }
}
