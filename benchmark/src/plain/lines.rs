//! Steps with a neighbourhood: a pass along rows, then one down columns. Both go down lines of bytes: the rows of a
//! picture, or eight rows turned into lines of 32 bytes.
use super::inputs::Inputs;
use super::rect::Rect;
use super::step::Input;
use super::tile::{gather, spread, LINE, ROWS};
use std::ops::Range;

/// The work in one direction.
pub trait Along {
    /// How many lines before and after a line it is made from.
    fn reach(&self) -> (usize, usize);

    /// The lines `wanted` of the result, `step` bytes apart in `dst`, from lines of n bytes that lie side by side in `src`.
    /// Lines outside are zero. `spare` is as long as `src`; both may be left with anything.
    fn run(&self, src: &mut [u8], spare: &mut [u8], n: usize, wanted: Range<usize>, dst: &mut [u8], step: usize);

    /// Whether it is quicker to work along each row than to turn rows into lines.
    fn by_row(&self) -> bool;

    /// The pixels `wanted` of the result of a row, where `by_row` says so.
    fn row(&self, row: &[u8], wanted: Range<usize>, dst: &mut [u8]);
}

/// The work that keeps every line.
pub fn copy(src: &[u8], n: usize, wanted: Range<usize>, dst: &mut [u8], step: usize) {
    for (src, dst) in src[n * wanted.start..n * wanted.end].chunks_exact(n).zip(dst.chunks_mut(step)) {
        dst[..n].copy_from_slice(src);
    }
}

/// Where the rectangle's lines lie in what is read, once the canvas has cut it.
fn inside(wanted: Range<usize>, read: Range<usize>) -> Range<usize> {
    wanted.start - read.start..wanted.end - read.start
}

fn read(wanted: Range<usize>, (back, ahead): (usize, usize), end: usize) -> Range<usize> {
    wanted.start.saturating_sub(back)..(wanted.end + ahead).min(end)
}

/// The part of an input that is read.
struct Part<'a> {
    inputs: &'a Inputs<'a>,
    input: Input,
    columns: Range<usize>,
    rows: Range<usize>,
}

impl Part<'_> {
    fn row<'b>(&'b self, y: usize, room: &'b mut Vec<u8>) -> &'b [u8] {
        self.inputs.row(self.input, y, self.columns.clone(), room)
    }

    /// The pass along rows: the columns `wanted` of what is read, row after row.
    fn across(&self, across: &impl Along, wanted: Range<usize>, dst: &mut [u8]) {
        let (n, mut room) = (4 * wanted.len(), Vec::new());
        if across.by_row() {
            for (y, dst) in self.rows.clone().zip(dst.chunks_exact_mut(n)) {
                across.row(self.row(y, &mut room), wanted.clone(), dst);
            }
            return;
        }
        let length = LINE * self.columns.len();
        let mut tiles = vec![0; 2 * length + LINE * wanted.len()];
        let (tile, rest) = tiles.split_at_mut(length);
        let (spare, worked) = rest.split_at_mut(length);
        for (group, dst) in self.rows.clone().step_by(ROWS).zip(dst.chunks_mut(ROWS * n)) {
            for (place, y) in (group..self.rows.end.min(group + ROWS)).enumerate() {
                spread(self.row(y, &mut room), tile, place);
            }
            across.run(tile, spare, LINE, wanted.clone(), worked, LINE);
            for (place, row) in dst.chunks_exact_mut(n).enumerate() {
                gather(worked, place, row);
            }
        }
    }
}

/// Draws a rectangle of a layer.
pub fn draw(inputs: &Inputs, input: Input, rect: Rect, across: &impl Along, down: &impl Along, out: &mut [u8], scratch: &mut [u8]) {
    let columns = read(rect.columns(), across.reach(), inputs.width);
    let rows = read(rect.rows(), down.reach(), inputs.height);
    let (wanted, n) = (inside(rect.columns(), columns.clone()), 4 * rect.columns().len());
    let (first, second) = scratch.split_at_mut(n * rows.len());
    Part { inputs, input, columns, rows: rows.clone() }.across(across, wanted, first);
    let at = 4 * (rect.top as usize * inputs.width + rect.left as usize);
    down.run(first, &mut second[..n * rows.len()], n, inside(rect.rows(), rows), &mut out[at..], 4 * inputs.width);
}
