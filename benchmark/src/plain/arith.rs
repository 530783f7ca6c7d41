//! The arithmetic composite: a table of all pairs of bytes where it pays, sums of 64 bits otherwise.

pub struct Arithmetic {
    k: [i64; 4],
    table: Option<Box<[u8; 65_536]>>,
}

fn channel([k1, k2, k3, k4]: [i64; 4], a: i64, b: i64) -> u8 {
    let sum = k1 * a * b + 255 * (k2 * a + k3 * b) + 65_025 * k4 + 8_355_840;
    // A sum below zero gives 0 whichever way it is rounded.
    (sum / 16_711_680).clamp(0, 255) as u8
}

impl Arithmetic {
    /// For so many pixels. The table takes as long as 16,384 of them.
    pub fn new(k: [i64; 4], pixels: usize) -> Arithmetic {
        let table = (pixels > 16_384).then(|| {
            let mut table: Box<[u8; 65_536]> = vec![0; 65_536].try_into().expect("its size");
            for (a, line) in table.chunks_exact_mut(256).enumerate() {
                for (b, byte) in line.iter_mut().enumerate() {
                    *byte = channel(k, a as i64, b as i64);
                }
            }
            table
        });
        Arithmetic { k, table }
    }

    pub fn row(&self, a: &[u8], b: &[u8], dst: &mut [u8]) {
        match &self.table {
            Some(table) => combine(a, b, dst, |a, b| table[256 * a as usize + b as usize]),
            None => combine(a, b, dst, |a, b| channel(self.k, a as i64, b as i64)),
        }
    }
}

fn combine(a: &[u8], b: &[u8], dst: &mut [u8], channel: impl Fn(u8, u8) -> u8) {
    for ((dst, a), b) in dst.chunks_exact_mut(4).zip(a.chunks_exact(4)).zip(b.chunks_exact(4)) {
        let alpha = channel(a[3], b[3]);
        let colour = |i: usize| channel(a[i], b[i]).min(alpha);
        dst.copy_from_slice(&[colour(0), colour(1), colour(2), alpha]);
    }
}
