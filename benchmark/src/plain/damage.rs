//! The rectangle of each step in a redraw.
use super::rect::Rect;
use super::step::{Input, Step, Work};

/// How far three boxes reach, on both sides.
pub fn blur_spread(d: usize) -> i32 {
    match d as i32 {
        0 => 0,
        d if d % 2 == 1 => 3 * (d - 1) / 2,
        d => 3 * d / 2 - 1,
    }
}

fn reach(work: &Work, rect: Rect) -> Rect {
    match *work {
        Work::Offset([dx, dy]) => rect.grown(-dx, dx, -dy, dy),
        Work::Blur([dx, dy]) => {
            let (x, y) = (blur_spread(dx), blur_spread(dy));
            rect.grown(x, x, y, y)
        }
        Work::Erode(radii) | Work::Dilate(radii) => {
            let [x, y] = radii.map(|r| r as i32);
            rect.grown(x, x, y, y)
        }
        Work::Convolve(ref convolution) => {
            let [left, right, above, below] = convolution.spread();
            rect.grown(left, right, above, below)
        }
        _ => rect,
    }
}

pub fn rectangles(steps: &[Step], changed: Rect) -> Vec<Rect> {
    let mut rects: Vec<Rect> = Vec::with_capacity(steps.len());
    for step in steps {
        let inputs = step.inputs.iter().map(|input| match *input {
            Input::Source | Input::Alpha => changed,
            Input::Layer(n) => rects[n],
        });
        let joined = inputs.filter(|rect| !rect.is_empty()).reduce(Rect::join);
        rects.push(joined.map_or(Rect::EMPTY, |rect| reach(&step.work, rect).cut(step.region)));
    }
    rects
}
