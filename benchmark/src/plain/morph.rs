//! Least and largest of a window after van Herk: in blocks as long as the window, what is least up to the end of a block;
//! then what is least since the start of the next one. A window is a part of each.
use super::lines::{copy, Along};
use super::short::LONGEST;
use std::ops::Range;

/// A radius in one direction. The window's lines run from y − radius to y + radius.
pub struct Extreme {
    pub largest: bool,
    pub radius: usize,
}

impl Along for Extreme {
    fn reach(&self) -> (usize, usize) {
        (self.radius, self.radius)
    }

    fn run(&self, src: &mut [u8], spare: &mut [u8], n: usize, wanted: Range<usize>, dst: &mut [u8], step: usize) {
        let lines = Lines { src, n, count: src.len() / n, radius: self.radius, largest: self.largest };
        match (self.radius, self.largest) {
            (0, _) => copy(src, n, wanted, dst, step),
            (..=LONGEST, false) => self.short_lines(src, n, wanted, dst, step, u8::min),
            (..=LONGEST, true) => self.short_lines(src, n, wanted, dst, step, u8::max),
            (_, false) => lines.run(spare, wanted, dst, step, u8::min),
            (_, true) => lines.run(spare, wanted, dst, step, u8::max),
        }
    }

    fn by_row(&self) -> bool {
        self.radius <= LONGEST
    }

    fn row(&self, row: &[u8], wanted: Range<usize>, dst: &mut [u8]) {
        if self.largest {
            self.short_row(row, wanted, dst, u8::max);
        } else {
            self.short_row(row, wanted, dst, u8::min);
        }
    }
}

struct Lines<'a> {
    src: &'a [u8],
    n: usize,
    count: usize,
    radius: usize,
    largest: bool,
}

pub fn fold(into: &mut [u8], from: &[u8], pick: impl Fn(u8, u8) -> u8) {
    for (into, from) in into.iter_mut().zip(from) {
        *into = pick(*into, *from);
    }
}

impl Lines<'_> {
    fn line(&self, y: usize) -> &[u8] {
        &self.src[self.n * y..][..self.n]
    }

    fn run(&self, spare: &mut [u8], wanted: Range<usize>, dst: &mut [u8], step: usize, pick: impl Fn(u8, u8) -> u8 + Copy) {
        let (n, window, first) = (self.n, 2 * self.radius + 1, wanted.start);
        let mut since = vec![0; n];
        let begins = first.max(self.radius).min(wanted.end);
        self.cut_windows(first..begins, dst, step, &mut since, pick);
        for start in (begins..wanted.end).step_by(window).map(|y| y - self.radius) {
            let length = window.min(self.count - start);
            self.up_to_end(start, &mut spare[..n * length], pick);
            for (j, till) in spare.chunks_exact(n).take(length.min(wanted.end - self.radius - start)).enumerate() {
                let (y, last) = (start + j + self.radius, start + j + window - 1);
                let dst = &mut dst[(y - first) * step..][..n];
                if last >= self.count && !self.largest {
                    dst.fill(0);
                } else if j == 0 || start + window >= self.count {
                    dst.copy_from_slice(till);
                } else {
                    self.joined(last, j == 1, &mut since, till, dst, pick);
                }
            }
        }
    }

    /// The windows that begin before the first line: what is outside is zero, and so is the least of it.
    fn cut_windows(&self, wanted: Range<usize>, dst: &mut [u8], step: usize, since: &mut [u8], pick: impl Fn(u8, u8) -> u8) {
        let mut next = 0;
        for (y, dst) in wanted.zip(dst.chunks_mut(step)) {
            if self.largest {
                let end = (y + self.radius + 1).min(self.count);
                (next..end).for_each(|y| fold(since, self.line(y), &pick));
                next = end;
            }
            dst[..self.n].copy_from_slice(since);
        }
    }

    /// For each line of a block the least from it up to the block's end.
    fn up_to_end(&self, start: usize, till: &mut [u8], pick: impl Fn(u8, u8) -> u8) {
        let (n, length) = (self.n, till.len() / self.n);
        till[n * (length - 1)..].copy_from_slice(self.line(start + length - 1));
        for j in (0..length - 1).rev() {
            let (line, next) = till[n * j..].split_at_mut(n);
            for ((line, next), src) in line.iter_mut().zip(next).zip(self.line(start + j)) {
                *line = pick(*next, *src);
            }
        }
    }

    /// One more line since the start of the next block, and what is least with it; past the last line there is no more.
    fn joined(&self, last: usize, begins: bool, since: &mut [u8], till: &[u8], dst: &mut [u8], pick: impl Fn(u8, u8) -> u8) {
        if begins {
            since.copy_from_slice(self.line(last));
        }
        if last >= self.count {
            dst.copy_from_slice(till);
            return fold(dst, since, pick);
        }
        for (((dst, since), more), till) in dst.iter_mut().zip(since).zip(self.line(last)).zip(till) {
            *since = pick(*since, *more);
            *dst = pick(*since, *till);
        }
    }
}
