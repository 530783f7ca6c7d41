//! Windows of one pixel, three or five: it is quickest to fold each by itself.
use super::morph::{fold, Extreme};
use std::ops::Range;

/// The longest radius that is taken here.
pub const LONGEST: usize = 2;

impl Extreme {
    /// What `wanted` pixels of a row become.
    pub fn short_row(&self, row: &[u8], wanted: Range<usize>, dst: &mut [u8], pick: impl Fn(u8, u8) -> u8 + Copy) {
        let (width, Range { start, end }) = (row.len() / 4, wanted);
        let first = start.max(self.radius).min(end);
        let last = end.min(width.saturating_sub(self.radius)).max(first);
        for x in (start..first).chain(last..end) {
            self.cut(row, x, 4, &mut dst[4 * (x - start)..][..4], pick);
        }
        if first < last {
            self.whole(row, 4 * first, 4, &mut dst[4 * (first - start)..4 * (last - start)], pick);
        }
    }

    /// What `wanted` lines of n bytes become, `step` bytes apart in the result.
    pub fn short_lines(&self, src: &[u8], n: usize, wanted: Range<usize>, dst: &mut [u8], step: usize, pick: impl Fn(u8, u8) -> u8 + Copy) {
        let count = src.len() / n;
        for (y, dst) in wanted.zip(dst.chunks_mut(step)) {
            if y < self.radius || count <= y + self.radius {
                self.cut(src, y, n, &mut dst[..n], pick);
            } else {
                self.whole(src, n * y, n, &mut dst[..n], pick);
            }
        }
    }

    /// Windows inside the canvas: byte i of `dst` from the bytes of `src` around at + i, `by` apart.
    fn whole(&self, src: &[u8], at: usize, by: usize, dst: &mut [u8], pick: impl Fn(u8, u8) -> u8) {
        let (first, length) = (at - self.radius * by, dst.len());
        let part = |k: usize| &src[first + k * by..][..length];
        match self.radius {
            0 => dst.copy_from_slice(part(0)),
            1 => {
                for (((dst, a), b), c) in dst.iter_mut().zip(part(0)).zip(part(1)).zip(part(2)) {
                    *dst = pick(pick(*a, *b), *c);
                }
            }
            _ => {
                let three = part(0).iter().zip(part(1)).zip(part(2));
                for ((dst, ((a, b), c)), (d, e)) in dst.iter_mut().zip(three).zip(part(3).iter().zip(part(4))) {
                    *dst = pick(pick(pick(*a, *b), pick(*c, *d)), *e);
                }
            }
        }
    }

    /// A window that leaves the canvas, around the pixel or line `place` of `by` bytes: what is outside is zero, which the
    /// largest does not see.
    fn cut(&self, src: &[u8], place: usize, by: usize, dst: &mut [u8], pick: impl Fn(u8, u8) -> u8) {
        dst.fill(0);
        if self.largest {
            let to = (by * (place + self.radius + 1)).min(src.len());
            src[by * place.saturating_sub(self.radius)..to].chunks_exact(by).for_each(|part| fold(dst, part, &pick));
        }
    }
}
