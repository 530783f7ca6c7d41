//! The sums of a convolution: of 16 bits where the kernel is small and whole and there is no bias, else of 32 or 64 bits with
//! one division.
use super::chunk::{alphas, div255, BYTES};
use std::ops::{AddAssign, Div, Mul};

/// A kernel turned half round: value i·columns + j goes with the pixel j of line i.
pub struct Kernel {
    pub columns: usize,
    pub rows: usize,
    /// The pixel's own place among the lines.
    pub column: usize,
    pub row: usize,
    pub preserve: bool,
    sums: Sums,
}

enum Sums {
    Small(Small),
    Narrow(General<i32>),
    Wide(General<i64>),
}

fn gcd(a: i64, b: i64) -> i64 {
    if b == 0 {
        a.abs()
    } else {
        gcd(b, a % b)
    }
}

/// Everything that a kernel is made of, in units, the values by rows as they are listed.
pub struct Numbers {
    pub values: Vec<i64>,
    pub divisor: Option<i64>,
    pub bias: i64,
}

/// Values and divisor without their common factor: turned half round, the divisor above zero.
struct Reduced {
    values: Vec<i64>,
    divisor: i64,
    /// The sum of the values' sizes, and of those below zero.
    sizes: i64,
    below: i64,
}

impl Reduced {
    fn new(values: &[i64], divisor: i64) -> Reduced {
        let common = values.iter().fold(divisor, |common, value| gcd(common, *value));
        // A divisor below zero goes into the values.
        let by = common * divisor.signum();
        let values: Vec<i64> = values.iter().rev().map(|value| value / by).collect();
        let sizes = values.iter().map(|value| value.abs()).sum();
        let below = values.iter().map(|value| (-value).max(0)).sum();
        Reduced { values, divisor: divisor / by, sizes, below }
    }
}

impl Kernel {
    pub fn new([columns, rows]: [usize; 2], [column, row]: [usize; 2], preserve: bool, numbers: &Numbers) -> Kernel {
        let all: i64 = numbers.values.iter().sum();
        let divisor = numbers.divisor.unwrap_or(if all == 0 { 65_536 } else { all });
        let reduced = Reduced::new(&numbers.values, divisor);
        let small = if numbers.bias == 0 { Small::new(&reduced) } else { None };
        let narrow = || General::new(&reduced, numbers.bias).map(Sums::Narrow);
        let wide = || General::new(&reduced, numbers.bias).map(Sums::Wide);
        let sums = small.map(Sums::Small).or_else(narrow).or_else(wide).expect("62 bits");
        Kernel { columns, rows, column, row, preserve, sums }
    }

    /// Whether its sums are of 16 bits.
    pub fn is_small(&self) -> bool {
        matches!(self.sums, Sums::Small(_))
    }

    /// A row of results from lines that have, for the result x, its neighbours at x to x + columns − 1.
    pub fn row(&self, lines: &[Vec<u8>], dst: &mut [u8]) {
        for (n, dst) in dst.chunks_mut(BYTES).enumerate() {
            let at = BYTES * n;
            match &self.sums {
                Sums::Small(small) => small.row(self.columns, lines, at, dst),
                Sums::Narrow(general) => general.row(self, lines, at, dst),
                Sums::Wide(general) => general.row(self, lines, at, dst),
            }
            if self.preserve {
                self.keep_alpha(&lines[self.row][at + 4 * self.column..], dst);
            } else {
                lower(dst);
            }
        }
    }

    /// The own pixels' alphas, and colours premultiplied by them. Alpha is multiplied by 255, which keeps it.
    fn keep_alpha(&self, own: &[u8], dst: &mut [u8]) {
        let mut f = [0; BYTES];
        for (dst, own) in dst.chunks_exact_mut(4).zip(own.chunks_exact(4)) {
            dst[3] = own[3];
        }
        alphas(dst, &mut f);
        f.chunks_exact_mut(4).for_each(|f| f[3] = 255);
        for (dst, f) in dst.iter_mut().zip(&f) {
            *dst = div255(*dst as u16 * *f as u16);
        }
    }
}

/// Each colour to alpha where it exceeds it.
fn lower(dst: &mut [u8]) {
    let mut most = [0; BYTES];
    alphas(dst, &mut most);
    for (dst, most) in dst.iter_mut().zip(&most) {
        *dst = (*dst).min(*most);
    }
}

/// Sums that never leave 16 bits: they begin at 255 times what is taken off, and a half of the divisor.
struct Small {
    values: Vec<u16>,
    start: u16,
    less: u16,
    divisor: u16,
    factor: u16,
    shift: u32,
}

impl Small {
    /// Where the values are so small, and the divisor has a factor of 16 bits.
    fn new(Reduced { values, divisor, sizes, below }: &Reduced) -> Option<Small> {
        if 255 * sizes + divisor / 2 > 65_535 || *divisor > 65_535 {
            return None;
        }
        // The factor is exact up to 256 times the divisor.
        let shift = if *divisor == 1 { 0 } else { (divisor - 1).ilog2() };
        let power = 1_i64 << (16 + shift);
        let factor = (power + divisor - 1) / divisor;
        if *divisor > 1 && (factor * divisor - power) * 256 * divisor >= power {
            return None;
        }
        let (start, less) = ((255 * below + divisor / 2) as u16, (255 * below) as u16);
        let values = values.iter().map(|value| *value as u16).collect();
        Some(Small { values, start, less, divisor: *divisor as u16, factor: factor as u16, shift })
    }

    fn row(&self, columns: usize, lines: &[Vec<u8>], at: usize, dst: &mut [u8]) {
        let mut all = [self.start; BYTES];
        let sums = &mut all[..dst.len()];
        for (values, line) in self.values.chunks_exact(columns).zip(lines) {
            let line = &line[at..at + dst.len() + 4 * (columns - 1)];
            match *values {
                _ if values.iter().all(|value| *value == 0) => {}
                [a] => add([a], line, sums),
                [a, b] => add([a, b], line, sums),
                [a, b, c] => add([a, b, c], line, sums),
                [a, b, c, d] => add([a, b, c, d], line, sums),
                [a, b, c, d, e] => add([a, b, c, d, e], line, sums),
                _ => unreachable!("at most five columns"),
            }
        }
        if self.divisor == 1 {
            for (dst, sum) in dst.iter_mut().zip(sums) {
                *dst = sum.saturating_sub(self.less).min(255) as u8;
            }
            return;
        }
        let most = (255 * u32::from(self.divisor)).min(65_535) as u16;
        for (dst, sum) in dst.iter_mut().zip(sums) {
            let sum = sum.saturating_sub(self.less).min(most);
            *dst = (((sum as u32 * self.factor as u32) >> 16) as u16 >> self.shift) as u8;
        }
    }
}

/// The products of a line with the values of a row, added up modulo 65,536.
#[inline(always)]
fn add<const N: usize>(values: [u16; N], line: &[u8], sums: &mut [u16]) {
    let lines: [&[u8]; N] = std::array::from_fn(|j| &line[4 * j..4 * j + sums.len()]);
    for (b, sum) in sums.iter_mut().enumerate() {
        let mut all = *sum;
        for j in 0..N {
            all = all.wrapping_add(values[j].wrapping_mul(lines[j][b] as u16));
        }
        *sum = all;
    }
}

/// One division a byte, of 32 bits where no sum can leave them.
struct General<T> {
    values: Vec<T>,
    divisor: T,
    /// What is added at each alpha: the bias and the half.
    more: Box<[T; 256]>,
}

impl<T: Copy + Ord + From<u8> + AddAssign + Mul<Output = T> + Div<Output = T> + TryFrom<i64> + TryInto<u8>> General<T> {
    /// Nothing where a sum may leave the type.
    fn new(Reduced { values, divisor, sizes, .. }: &Reduced, bias: i64) -> Option<General<T>> {
        let more: [i64; 256] = std::array::from_fn(|a| (divisor * (bias * a as i64 + 32_768)) >> 16);
        let most = 255 * sizes + more[0].abs().max(more[255].abs());
        T::try_from(most).ok()?;
        let narrow = |n: &i64| T::try_from(*n).ok();
        Some(General {
            values: values.iter().map(narrow).collect::<Option<_>>()?,
            divisor: narrow(divisor)?,
            more: more.iter().map(narrow).collect::<Option<Vec<T>>>()?.try_into().ok()?,
        })
    }

    fn row(&self, kernel: &Kernel, lines: &[Vec<u8>], at: usize, dst: &mut [u8]) {
        let own = &lines[kernel.row][at + 4 * kernel.column..];
        let (least, most) = (T::from(0), T::from(255));
        for (x, (dst, own)) in dst.chunks_exact_mut(4).zip(own.chunks_exact(4)).enumerate() {
            let mut sums = [self.more[own[3] as usize]; 4];
            for (values, line) in self.values.chunks_exact(kernel.columns).zip(lines) {
                for (value, pixel) in values.iter().zip(line[at + 4 * x..].chunks_exact(4)) {
                    for (sum, channel) in sums.iter_mut().zip(pixel) {
                        *sum += *value * T::from(*channel);
                    }
                }
            }
            // A sum below zero gives 0 whichever way it is rounded.
            for (dst, sum) in dst.iter_mut().zip(sums) {
                *dst = (sum / self.divisor).clamp(least, most).try_into().unwrap_or(255);
            }
        }
    }
}
