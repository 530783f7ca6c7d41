//! Which part is redrawn (RULES 6.3, 6.5): the rectangle of each step, and the count.

use crate::convolve::spread;
use crate::fault::Fault;
use crate::number::UNIT;
use crate::rect::Rect;
use crate::step::{Checked, Input, Kind};
use crate::window::box_size;

/// "Blur grows it on both sides by 3·(d−1)/2 for odd d, by 3·d/2 − 1 for even d, by 0 for d of 0."
fn blur_spread(units: i64, fault: Fault) -> i64 {
    let d = box_size(units, fault);
    if d == 0 {
        0
    } else if d % 2 == 1 {
        3 * (d - 1) / 2 - fault.choose(Fault::OddSpreadLess, 0, 1).min(d - 1)
    } else {
        3 * d / 2 - 1
            + match fault {
                Fault::EvenSpreadLess => -1,
                Fault::EvenSpreadMore => 1,
                _ => 0,
            }
    }
}

/// "Grows by r on each side."
fn radius_spread(radius: i64, fault: Fault) -> (i64, i64) {
    match (radius, fault) {
        (0, _) => (0, 0),
        (r, Fault::RadiusSpreadLessLeft) => (r - 1, r),
        (r, Fault::RadiusSpreadLessRight) => (r, r - 1),
        (r, Fault::RadiusSpreadMore) => (r + 1, r + 1),
        (r, _) => (r, r),
    }
}

/// What a step makes of the rectangle of its inputs, before the cut. "An empty rectangle stays empty."
fn reach(step: &Checked, rect: Rect, fault: Fault) -> Rect {
    if rect.is_empty() && !fault.is(Fault::EmptyGrows) {
        return Rect::EMPTY;
    }
    let units = &step.units;
    match step.kind {
        Kind::Offset => {
            let (dx, dy) = fault.choose(Fault::OffsetRectStays, (units[0] / UNIT, units[1] / UNIT), (0, 0));
            rect.grown(-dx, dx, -dy, dy)
        }
        Kind::Blur => {
            let (across, down) = (blur_spread(units[0], fault), blur_spread(units[1], fault));
            rect.grown(across, across, down, down)
        }
        Kind::Erode | Kind::Dilate => {
            let (left, right) = radius_spread(units[0] / UNIT, fault);
            let (above, below) = radius_spread(units[1] / UNIT, fault);
            rect.grown(left, right, above, below)
        }
        // "With the redraw rectangle of its input."
        Kind::Curve(_) => match fault {
            Fault::CurveRectWhole => rect.grown(1024, 1024, 1024, 1024),
            Fault::CurveRectEmpty => Rect::EMPTY,
            _ => rect,
        },
        Kind::Convolve(shape) => match spread(shape, fault) {
            Some([left, right, above, below]) => rect.grown(left, right, above, below),
            None => rect.grown(1024, 1024, 1024, 1024),
        },
        _ => rect,
    }
}

/// "One input, that rectangle; several, the smallest rectangle holding all non-empty ones; flood, empty."
fn joined(inputs: &[Rect], fault: Fault) -> Rect {
    let all = inputs.iter().copied().filter(|rect| !rect.is_empty() || fault.is(Fault::EmptyJoined));
    if fault.is(Fault::FirstInputOnly) {
        return inputs.first().copied().unwrap_or(Rect::EMPTY);
    }
    all.reduce(Rect::join).unwrap_or(Rect::EMPTY)
}

/// Each step's rectangle, in order. "The source's rectangle, and its alpha's, is the one named by the caller."
/// "Last it is cut to the canvas and to the step's region."
pub fn rectangles(width: usize, height: usize, steps: &[Checked], changed: Rect, fault: Fault) -> Vec<Rect> {
    let canvas = Rect { left: 0, top: 0, right: width as i64, bottom: height as i64 };
    let mut rects: Vec<Rect> = Vec::new();
    for step in steps {
        let of = |input: &Input| match input {
            Input::Layer(n) => rects.get(*n).copied().unwrap_or(Rect::EMPTY),
            Input::Alpha if fault.is(Fault::AlphaUnmoved) => Rect::EMPTY,
            Input::Source | Input::Alpha => changed,
        };
        let inputs: Vec<Rect> = step.inputs.iter().map(of).collect();
        let full = reach(step, joined(&inputs, fault), fault).cut(canvas);
        let cut = full.cut(Rect::of(step.region));
        let beyond = fault.is(Fault::RectsOfSixteen) && rects.len() >= 16;
        let cut = if cut.is_empty() || beyond { Rect::EMPTY } else { cut };
        rects.push(fault.choose(Fault::RectNotCut, cut, full));
    }
    rects
}

/// "The sum of the areas: .. each step's rectangle after the cut, once for each step; the source's own is not in it."
pub fn count(rects: &[Rect], changed: Rect, fault: Fault) -> u64 {
    let all: u64 = rects.iter().map(|rect| rect.area()).sum();
    match fault {
        Fault::CountWithoutLast => all - rects.last().map_or(0, |rect| rect.area()),
        Fault::CountWithSource => all + changed.area(),
        _ => all,
    }
}
