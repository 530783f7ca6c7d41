//! What is measured: each kernel over a whole picture, as a step would call it.
use super::canvas::{Canvas, HALF, SATURATION};
use super::convolve::Convolution;
use crate::calls::sheets::{GENERAL, SHARPEN, SOFT_3, SOFT_5};
use crate::kernels;
use crate::plain::space::{Conversion, Space};
use std::cell::RefCell;
use std::hint::black_box;

pub struct Step {
    pub name: String,
    /// At most so many memory passes, where a figure is set.
    pub target: Option<f64>,
    pub run: Box<dyn Fn(&mut Canvas)>,
}

fn step(name: impl Into<String>, target: impl Into<Option<f64>>, run: impl Fn(&mut Canvas) + 'static) -> Step {
    Step { name: name.into(), target: target.into(), run: Box::new(run) }
}

/// Each row of a and of the result.
fn rows(c: &mut Canvas, work: impl Fn(&[u8], &mut [u8])) {
    for (src, dst) in c.a.chunks_exact(4 * c.side).zip(c.out.chunks_exact_mut(4 * c.side)) {
        work(src, dst);
    }
}

fn composite(c: &mut Canvas, op: u8) {
    let row = 4 * c.side;
    for ((a, b), dst) in c.a.chunks_exact(row).zip(c.b.chunks_exact(row)).zip(c.out.chunks_exact_mut(row)) {
        kernels::composite_row(op, a, b, &mut c.factor_a, &mut c.factor_b, dst);
    }
}

/// The same as a step does it whose layers lie in one slice: its inputs' rows are copied first.
fn composite_copied(c: &mut Canvas, op: u8) {
    let row = 4 * c.side;
    for ((a, b), dst) in c.a.chunks_exact(row).zip(c.b.chunks_exact(row)).zip(c.out.chunks_exact_mut(row)) {
        kernels::copy(a, &mut c.row_a);
        kernels::copy(b, &mut c.row_b);
        kernels::composite_row(op, &c.row_a, &c.row_b, &mut c.factor_a, &mut c.factor_b, dst);
    }
}

fn arithmetic(c: &mut Canvas) {
    let row = 4 * c.side;
    for ((a, b), dst) in c.a.chunks_exact(row).zip(c.b.chunks_exact(row)).zip(c.out.chunks_exact_mut(row)) {
        kernels::copy(a, &mut c.row_a);
        kernels::copy(b, &mut c.row_b);
        kernels::combine_row(HALF, &c.products, &c.row_a, &c.row_b, dst);
    }
}

fn saturate(c: &mut Canvas) {
    for (src, dst) in c.a.chunks_exact(4 * c.side).zip(c.out.chunks_exact_mut(4 * c.side)) {
        kernels::copy(src, &mut c.row_a);
        kernels::saturate_row(SATURATION, &c.weights, &c.inverse, &c.row_a, dst);
    }
}

fn luminance(c: &mut Canvas) {
    for (src, dst) in c.a.chunks_exact(4 * c.side).zip(c.out.chunks_exact_mut(4 * c.side)) {
        kernels::copy(src, &mut c.row_a);
        kernels::luminance_row(&c.luminance, &c.inverse, &c.row_a, dst);
    }
}

/// As a step reads an input of the other space: the row is copied, then converted in place.
fn convert(c: &mut Canvas, linear: bool) {
    let table = if linear { &c.to_linear } else { &c.to_srgb };
    for (src, dst) in c.a.chunks_exact(4 * c.side).zip(c.out.chunks_exact_mut(4 * c.side)) {
        kernels::copy(src, dst);
        kernels::convert_row(linear, dst, table);
    }
}

/// The same by the plain version.
fn convert_plainly(c: &mut Canvas, to: Space) {
    let conversion = Conversion::new(to);
    rows(c, |src, dst| conversion.row(src, dst));
}

/// As a step works it: the row is copied to a work row, then mapped.
fn curve(c: &mut Canvas) {
    for (src, dst) in c.a.chunks_exact(4 * c.side).zip(c.out.chunks_exact_mut(4 * c.side)) {
        kernels::copy(src, &mut c.row_a);
        kernels::curve_row(&c.maps, &c.curve, &c.row_a, dst);
    }
}

/// The same by the plain version, which reads its input where it lies.
fn curve_plainly(c: &mut Canvas) {
    for (src, dst) in c.a.chunks_exact(4 * c.side).zip(c.out.chunks_exact_mut(4 * c.side)) {
        c.plain_curve.row(src, dst);
    }
}

/// As a step works it: the rows under the kernel are copied to lines, then summed.
fn convolve(c: &mut Canvas, kernel: &RefCell<Convolution>) {
    let mut kernel = kernel.borrow_mut();
    for (y, dst) in c.out.chunks_exact_mut(4 * c.side).enumerate() {
        kernel.row(&c.a, c.side, y, dst);
    }
}

/// Three passes along rows, eight rows at a time, then three down. The result is the second picture of `pair`.
fn blur(c: &mut Canvas, d: usize) {
    let (side, row) = (c.side, 4 * c.side);
    let across = c.a.chunks_exact(8 * row).zip(c.pair.chunks_exact_mut(8 * row));
    for (src, dst) in across {
        for (i, line) in src.chunks_exact(row).enumerate() {
            kernels::spread(line, &mut c.tile, 4 * i);
        }
        kernels::blur_lines(&mut c.tile, 32, side, d, &mut c.sums);
        for (i, line) in dst.chunks_exact_mut(row).enumerate() {
            kernels::gather(&c.tile, 32 * side + 4 * i, line);
        }
    }
    kernels::blur_lines(&mut c.pair, row, side, d, &mut c.sums);
}

/// Along each row. The result is the first picture of `pair`.
fn extreme_along(c: &mut Canvas, largest: bool, r: usize) {
    let (side, row) = (c.side, 4 * c.side);
    for (src, dst) in c.a.chunks_exact(row).zip(c.pair.chunks_exact_mut(row)) {
        kernels::copy(src, &mut c.two_rows[..row]);
        let at = kernels::extreme_lines(largest, &mut c.two_rows, 4, side, r);
        kernels::copy(&c.two_rows[at..at + row], dst);
    }
}

/// Down the first picture of `pair`. The result is one of its pictures.
fn extreme_down(c: &mut Canvas, largest: bool, r: usize) {
    black_box(kernels::extreme_lines(largest, &mut c.pair, 4 * c.side, c.side, r));
}

fn extreme(c: &mut Canvas, largest: bool, r: usize) {
    extreme_along(c, largest, r);
    extreme_down(c, largest, r);
}

/// The steps in the order of the table.
pub fn all() -> Vec<Step> {
    let mut steps = vec![
        step("copy", 1.2, |c| rows(c, kernels::copy)),
        step("offset", 1.2, |c| rows(c, |src, dst| kernels::shift_row(src, 37, dst))),
        step("alpha of the source", None, |c| rows(c, kernels::alpha_row)),
        step("clear", 0.7, |c| rows(c, |_, dst| kernels::clear(dst))),
        step("fill", 0.7, |c| rows(c, |_, dst| kernels::fill(dst, [10, 20, 30, 40]))),
        step("scan", 1.2, |c| assert!(kernels::first_invalid(&c.a, c.side, c.side) == c.side * c.side)),
    ];
    for (op, (name, target)) in [("over", 3.5), ("in", 2.5), ("out", 2.5), ("atop", 4.0), ("xor", 4.0)].into_iter().enumerate() {
        steps.push(step(name, target, move |c| composite(c, op as u8)));
        steps.push(step(format!("{name}, rows copied first"), None, move |c| composite_copied(c, op as u8)));
    }
    steps.push(step("arithmetic", 14.0, arithmetic));
    steps.push(step("matrix (saturate)", 16.0, saturate));
    steps.push(step("luminance to alpha", 7.0, luminance));
    steps.push(step("curve", None, curve));
    steps.push(step("curve, plain version", None, curve_plainly));
    steps.push(step("tables of a curve", None, |c| kernels::prepare_curve(&c.maps, &mut c.curve)));
    steps.push(step("conversion to linear", None, |c| convert(c, true)));
    steps.push(step("conversion to linear, plain version", None, |c| convert_plainly(c, Space::Linear)));
    steps.push(step("conversion to sRGB", None, |c| convert(c, false)));
    steps.push(step("conversion to sRGB, plain version", None, |c| convert_plainly(c, Space::Srgb)));
    steps.push(step("table of a conversion", None, |c| kernels::prepare_convert(true, &mut c.to_linear)));
    for (name, fields) in [("3x3", SOFT_3), ("5x5", SOFT_5), ("3x3 general", GENERAL), ("sharpen", SHARPEN)] {
        let kernel = RefCell::new(Convolution::new(fields));
        steps.push(step(format!("conv {name}"), None, move |c| convolve(c, &kernel)));
    }
    for d in [3, 10, 60] {
        steps.push(step(format!("blur, d = {d}"), 16.0, move |c| blur(c, d)));
    }
    for (name, largest) in [("erode", false), ("dilate", true)] {
        for (r, target) in [(1, 4.0), (8, 7.0), (64, 10.0)] {
            steps.push(step(format!("{name}, r = {r}"), target, move |c| extreme(c, largest, r)));
        }
    }
    for r in [1, 2, 8, 64] {
        steps.push(step(format!("dilate along rows, r = {r}"), None, move |c| extreme_along(c, true, r)));
        steps.push(step(format!("dilate down, r = {r}"), None, move |c| extreme_down(c, true, r)));
    }
    steps
}
