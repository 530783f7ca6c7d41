//! Box passes by running sums of 16 bits.
use super::damage::blur_spread;
use super::lines::{copy, Along};
use std::ops::Range;

/// A blur in one direction, by the size of its boxes.
pub struct Blur(pub usize);

impl Along for Blur {
    fn reach(&self) -> (usize, usize) {
        let spread = blur_spread(self.0) as usize;
        (spread, spread)
    }

    fn run(&self, src: &mut [u8], spare: &mut [u8], n: usize, wanted: Range<usize>, dst: &mut [u8], step: usize) {
        if self.0 < 2 {
            return copy(src, n, wanted, dst, step);
        }
        let [one, two, three] = boxes(self.0);
        let (all, mut sums) = (0..src.len() / n, vec![0; n]);
        pass(src, n, one, all.clone(), spare, n, &mut sums);
        pass(spare, n, two, all, src, n, &mut sums);
        pass(src, n, three, wanted, dst, step, &mut sums);
    }

    fn by_row(&self) -> bool {
        self.0 < 2
    }

    fn row(&self, row: &[u8], wanted: Range<usize>, dst: &mut [u8]) {
        dst.copy_from_slice(&row[4 * wanted.start..4 * wanted.end]);
    }
}

/// How far each box reaches back and ahead.
fn boxes(d: usize) -> [(usize, usize); 3] {
    let half = d / 2;
    if d % 2 == 1 {
        [(half, half); 3]
    } else {
        [(half, half - 1), (half - 1, half), (half, half)]
    }
}

/// A division by a box's size, exact for sums of that many bytes: a factor of 16 bits and a shift.
struct Mean {
    factor: u16,
    shift: u32,
}

impl Mean {
    fn new(size: usize) -> Mean {
        let shift = (size - 1).ilog2();
        Mean { factor: (1_usize << (16 + shift)).div_ceil(size) as u16, shift }
    }

    #[inline(always)]
    fn of(&self, sum: u16) -> u8 {
        (((sum as u32 * self.factor as u32) >> 16) as u16 >> self.shift) as u8
    }
}

/// One box.
fn pass(src: &[u8], n: usize, (back, ahead): (usize, usize), wanted: Range<usize>, dst: &mut [u8], step: usize, sums: &mut [u16]) {
    let (count, size, first) = (src.len() / n, back + ahead + 1, wanted.start);
    let (mean, zeros) = (Mean::new(size), vec![0; n]);
    let line = |y: usize| &src[n * y..][..n];
    sums.fill(size as u16 / 2);
    // All but the last line of the first window.
    for y in first.saturating_sub(back)..(first + ahead).min(count) {
        for (sum, byte) in sums.iter_mut().zip(line(y)) {
            *sum += *byte as u16;
        }
    }
    for (y, dst) in wanted.zip(dst.chunks_mut(step)) {
        let enters = if y + ahead < count { line(y + ahead) } else { &zeros };
        let leaves = if y > first && y > back { line(y - back - 1) } else { &zeros };
        for (((sum, dst), enters), leaves) in sums.iter_mut().zip(&mut dst[..n]).zip(enters).zip(leaves) {
            *sum = *sum + *enters as u16 - *leaves as u16;
            *dst = mean.of(*sum);
        }
    }
}

#[cfg(test)]
mod tests {
    use super::Mean;

    #[test]
    fn the_mean_is_exact() {
        for size in 2..=61 {
            let (mean, half) = (Mean::new(size), size / 2);
            for sum in half..=255 * size + half {
                assert_eq!(mean.of(sum as u16) as usize, sum / size, "{sum} / {size}");
            }
        }
    }
}
