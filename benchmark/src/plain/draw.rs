//! One step drawn inside one rectangle of its layer.
use super::arith::Arithmetic;
use super::blur::Blur;
use super::composite;
use super::convolve::{Convolution, Lines};
use super::curve::{Curve, Maps};
use super::inputs::Inputs;
use super::lines;
use super::matrix::{luminance_row, Matrix, Straight};
use super::morph::Extreme;
use super::rect::Rect;
use super::step::{Input, Step, Work};

/// The rectangle's part of each row of a layer.
fn rows(out: &mut [u8], width: usize, rect: Rect) -> impl Iterator<Item = (usize, &mut [u8])> {
    let columns = 4 * rect.left as usize..4 * rect.right as usize;
    let all = out.chunks_exact_mut(4 * width).enumerate();
    all.skip(rect.top as usize).take(rect.rows().len()).map(move |(y, row)| (y, &mut row[columns.clone()]))
}

/// Each row from the same row of one input.
fn one(inputs: &Inputs, input: Input, rect: Rect, out: &mut [u8], work: impl Fn(&[u8], &mut [u8])) {
    let mut room = Vec::new();
    for (y, dst) in rows(out, inputs.width, rect) {
        work(inputs.row(input, y, rect.columns(), &mut room), dst);
    }
}

/// Each row from the same rows of two inputs.
fn two(inputs: &Inputs, [a, b]: [Input; 2], rect: Rect, out: &mut [u8], work: impl Fn(&[u8], &[u8], &mut [u8])) {
    let (mut room, mut other) = (Vec::new(), Vec::new());
    for (y, dst) in rows(out, inputs.width, rect) {
        work(inputs.row(a, y, rect.columns(), &mut room), inputs.row(b, y, rect.columns(), &mut other), dst);
    }
}

fn offset(inputs: &Inputs, input: Input, [dx, dy]: [i32; 2], rect: Rect, out: &mut [u8]) {
    let canvas = Rect::new(0, 0, inputs.width, inputs.height);
    let read = rect.grown(dx, -dx, dy, -dy).cut(canvas);
    let mut room = Vec::new();
    for (y, dst) in rows(out, inputs.width, rect) {
        let from = y as i32 - dy;
        if read.is_empty() || from < read.top || from >= read.bottom {
            dst.fill(0);
            continue;
        }
        let (start, length) = (4 * (read.left + dx - rect.left) as usize, 4 * read.columns().len());
        dst[..start].fill(0);
        dst[start + length..].fill(0);
        dst[start..start + length].copy_from_slice(inputs.row(input, from as usize, read.columns(), &mut room));
    }
}

fn curve(inputs: &Inputs, input: Input, maps: Maps, rect: Rect, out: &mut [u8]) {
    let curve = Curve::new(maps, rect.area() as usize, inputs.conversion_of(input));
    if !curve.converts() {
        return one(inputs, input, rect, out, |src, dst| curve.row(src, dst));
    }
    let mut room = Vec::new();
    for (y, dst) in rows(out, inputs.width, rect) {
        curve.row(inputs.kept(input, y, rect.columns(), &mut room), dst);
    }
}

fn merge(inputs: &Inputs, all: &[Input], rect: Rect, out: &mut [u8]) {
    let mut room = Vec::new();
    for (y, dst) in rows(out, inputs.width, rect) {
        dst.copy_from_slice(inputs.row(all[0], y, rect.columns(), &mut room));
        for input in &all[1..] {
            composite::lay_over(inputs.row(*input, y, rect.columns(), &mut room), dst);
        }
    }
}

fn convolve(inputs: &Inputs, input: Input, convolution: &Convolution, rect: Rect, out: &mut [u8]) {
    let mut lines = Lines::new(convolution, inputs, input, rect);
    for (y, dst) in rows(out, inputs.width, rect) {
        convolution.kernel.row(lines.at(y), dst);
    }
}

pub fn draw(step: &Step, rect: Rect, inputs: &Inputs, out: &mut [u8], scratch: &mut [u8]) {
    if rect.is_empty() {
        return;
    }
    let input = |n: usize| step.inputs[n];
    let extreme = |largest: bool, radius: usize| Extreme { largest, radius };
    let near = |across, down, out, scratch| lines::draw(inputs, input(0), rect, across, down, out, scratch);
    match step.work {
        Work::Flood(pixel) => {
            rows(out, inputs.width, rect).for_each(|(_, dst)| dst.chunks_exact_mut(4).for_each(|p| p.copy_from_slice(&pixel)))
        }
        Work::Offset(by) => offset(inputs, input(0), by, rect, out),
        Work::Blur([x, y]) => lines::draw(inputs, input(0), rect, &Blur(x), &Blur(y), out, scratch),
        Work::Erode([x, y]) => near(&extreme(false, x), &extreme(false, y), out, scratch),
        Work::Dilate([x, y]) => near(&extreme(true, x), &extreme(true, y), out, scratch),
        Work::Matrix(m) => {
            let matrix = Matrix::new(&m);
            one(inputs, input(0), rect, out, |src, dst| matrix.row(src, dst));
        }
        Work::Luminance => {
            let straight = Straight::new();
            one(inputs, input(0), rect, out, |src, dst| luminance_row(&straight, src, dst));
        }
        Work::Curve(ref maps) => curve(inputs, input(0), **maps, rect, out),
        Work::Composite(operator) => {
            two(inputs, [input(0), input(1)], rect, out, |a, b, dst| composite::row(operator, a, b, dst));
        }
        Work::Arithmetic(k) => {
            let arithmetic = Arithmetic::new(k, rect.area() as usize);
            two(inputs, [input(0), input(1)], rect, out, |a, b, dst| arithmetic.row(a, b, dst));
        }
        Work::Merge => merge(inputs, &step.inputs, rect, out),
        Work::Convolve(ref convolution) => convolve(inputs, input(0), convolution, rect, out),
    }
}
