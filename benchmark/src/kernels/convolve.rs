//! The convolution kernel: its C name, and a picture through it, line by line.
use super::copy;
use crate::plain::units;

extern "C" {
    /// The convolution field by field, its numbers as `above` and `below` in turn, then five lines of 1,028 pixels; `count` results from the
    /// one at `left` on.
    fn twillgoose_kernel_convolve_row(
        columns: usize,
        rows: usize,
        divided: bool,
        column: usize,
        row: usize,
        preserve: bool,
        values: *const u64,
        values_len: usize,
        lines: *const u8,
        lines_len: usize,
        left: usize,
        count: usize,
        dst: *mut u8,
        dst_len: usize,
    );
}

/// A line has room for a row of 1,024 pixels and four more.
const LINE: usize = 4 * 1028;
const LINES: usize = 5;

/// Numbers in a step.
const NUMBERS: usize = 64;

/// A convolution as a step hands it to its kernel.
pub struct Convolution {
    orders: [usize; 2],
    target: [usize; 2],
    divided: bool,
    preserve: bool,
    values: [u64; 2 * NUMBERS],
    lines: Vec<u8>,
}

impl Convolution {
    /// Its fields after the input, with spaces for tabs.
    pub fn new(text: &str) -> Convolution {
        let fields: Vec<&str> = text.split(' ').collect();
        let whole = |n: usize| fields[n].parse::<usize>().expect("a whole number");
        let (orders, end) = ([whole(0), whole(1)], 2 + whole(0) * whole(1));
        let divided = !fields[end].is_empty();
        let numbers = fields[2..end + 2].iter().filter(|field| !field.is_empty());
        let mut values = [0; 2 * NUMBERS];
        for (pair, field) in values.chunks_exact_mut(2).zip(numbers) {
            let units = units(field);
            pair.copy_from_slice(&[units.max(0) as u64, (-units).max(0) as u64]);
        }
        let (target, preserve) = ([whole(end + 2), whole(end + 3)], fields[end + 4] == "true");
        Convolution { orders, target, divided, preserve, values, lines: vec![0; LINE * LINES] }
    }

    /// Row y of a picture, from its lines: beyond the first row and the last these stand again, beyond the columns there is transparent black.
    /// With preserve-alpha a step unpremultiplies the lines before; what they hold does not change how long the kernel takes.
    pub fn row(&mut self, picture: &[u8], side: usize, y: usize, dst: &mut [u8]) {
        let ([columns, rows], [column, row]) = (self.orders, self.target);
        for (i, line) in self.lines.chunks_exact_mut(LINE).take(rows).enumerate() {
            let v = (y + i).saturating_sub(row).min(side - 1);
            copy(&picture[4 * side * v..][..4 * side], &mut line[4 * column..][..4 * side]);
        }
        assert!(side + columns - 1 <= LINE / 4 && dst.len() == 4 * side);
        let (values, lines, out) = (self.values.as_ptr(), self.lines.as_ptr(), dst.as_mut_ptr());
        let (numbers, length) = (self.values.len(), self.lines.len());
        unsafe {
            twillgoose_kernel_convolve_row(
                columns,
                rows,
                self.divided,
                column,
                row,
                self.preserve,
                values,
                numbers,
                lines,
                length,
                0,
                side,
                out,
                4 * side,
            )
        }
    }
}
