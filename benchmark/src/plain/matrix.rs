//! Colour matrices: products from tables, four sums beside each other.
use super::chunk::{alphas, div255, BYTES};
use std::ops::Add;

/// For each alpha a factor and what is added: (c·factor + more) ÷ 65,536 is c unpremultiplied, for c up to a.
pub struct Straight(Box<[(u32, u32); 256]>);

impl Straight {
    pub fn new() -> Straight {
        let of = |a: u32| if a == 0 { (0, 0) } else { ((255 * 65_536_u32).div_ceil(a), (a / 2 * 65_536).div_ceil(a)) };
        Straight(Box::new(std::array::from_fn(|a| of(a as u32))))
    }

    /// R, G, B unpremultiplied, and alpha.
    #[inline(always)]
    pub fn of(&self, p: &[u8]) -> [usize; 4] {
        let (factor, more) = self.0[p[3] as usize];
        let straight = |c: u8| ((c as u32 * factor + more) >> 16) as u8 as usize;
        [straight(p[0]), straight(p[1]), straight(p[2]), p[3] as usize]
    }
}

/// A byte's products with the four rows of the matrix.
type Products<T> = [[T; 4]; 256];

pub enum Matrix {
    /// Where no sum can leave 32 bits.
    Narrow(Straight, Box<[Products<i32>; 4]>),
    Wide(Straight, Box<[Products<i64>; 4]>),
}

impl Matrix {
    pub fn new(m: &[i64; 20]) -> Matrix {
        let product = |column: usize, byte: usize, row: usize| {
            let more = if column == 3 { 255 * m[5 * row + 4] + 32_768 } else { 0 };
            m[5 * row + column] * byte as i64 + more
        };
        let largest = m.chunks_exact(5).map(|row| 255 * row.iter().map(|m| m.abs()).sum::<i64>() + 32_768).max();
        if largest.expect("four rows") <= i32::MAX as i64 {
            Matrix::Narrow(Straight::new(), tables(|c, b, r| product(c, b, r) as i32))
        } else {
            Matrix::Wide(Straight::new(), tables(product))
        }
    }

    pub fn row(&self, src: &[u8], dst: &mut [u8]) {
        match self {
            Matrix::Narrow(straight, tables) => {
                transform(src, dst, |p| sums(tables, straight.of(p)).map(|sum| (sum >> 16).clamp(0, 255) as u8))
            }
            Matrix::Wide(straight, tables) => {
                transform(src, dst, |p| sums(tables, straight.of(p)).map(|sum| (sum >> 16).clamp(0, 255) as u8))
            }
        }
    }
}

#[inline(always)]
fn sums<T: Copy + Add<Output = T>>(tables: &[Products<T>; 4], [r, g, b, a]: [usize; 4]) -> [T; 4] {
    let (r, g, b, a) = (&tables[0][r], &tables[1][g], &tables[2][b], &tables[3][a]);
    [0, 1, 2, 3].map(|i| r[i] + g[i] + b[i] + a[i])
}

fn tables<T: Copy + Default>(product: impl Fn(usize, usize, usize) -> T) -> Box<[Products<T>; 4]> {
    let mut tables = Box::new([[[T::default(); 4]; 256]; 4]);
    for (column, table) in tables.iter_mut().enumerate() {
        for (byte, products) in table.iter_mut().enumerate() {
            *products = std::array::from_fn(|row| product(column, byte, row));
        }
    }
    tables
}

/// Each pixel by `work`, then premultiplied. Alpha is multiplied by 255, which keeps it.
#[inline(always)]
pub fn transform(src: &[u8], dst: &mut [u8], work: impl Fn(&[u8]) -> [u8; 4]) {
    let mut f = [0; BYTES];
    for (dst, src) in dst.chunks_mut(BYTES).zip(src.chunks(BYTES)) {
        for (out, pixel) in dst.chunks_exact_mut(4).zip(src.chunks_exact(4)) {
            out.copy_from_slice(&work(pixel));
        }
        alphas(dst, &mut f);
        f.chunks_exact_mut(4).for_each(|f| f[3] = 255);
        for (dst, f) in dst.iter_mut().zip(&f) {
            *dst = div255(*dst as u16 * *f as u16);
        }
    }
}

pub fn luminance_row(straight: &Straight, src: &[u8], dst: &mut [u8]) {
    for (dst, src) in dst.chunks_exact_mut(4).zip(src.chunks_exact(4)) {
        let [r, g, b, _] = straight.of(src);
        let alpha = (13_926 * r as u32 + 46_884 * g as u32 + 4_725 * b as u32 + 32_768) >> 16;
        dst.copy_from_slice(&[0, 0, 0, alpha as u8]);
    }
}
