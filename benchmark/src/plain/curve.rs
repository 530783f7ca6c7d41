//! Component transfer: a map for each channel; tables of every colour at every alpha where they pay.
use super::chunk::div255;
use super::matrix::{transform, Straight};
use super::space::Conversion;

/// What each byte of R, G, B and A becomes.
pub type Maps = [[u8; 256]; 4];

/// Entries and lines in units.
fn table(v: &[i64], c: usize) -> u8 {
    let (k, t) = (c * (v.len() - 1) / 255, (c * (v.len() - 1) % 255) as i64);
    let next = v.get(k + 1).copied().unwrap_or(0);
    (((255 - t) * v[k] + t * next + 32_768) >> 16) as u8
}

fn discrete(v: &[i64], c: usize) -> u8 {
    let k = (c * v.len() / 255).min(v.len() - 1);
    ((255 * v[k] + 32_768) >> 16) as u8
}

fn linear([slope, intercept]: [i64; 2], c: usize) -> u8 {
    ((slope * c as i64 + 255 * intercept + 32_768) >> 16).clamp(0, 255) as u8
}

/// The maps that the fields name: for each channel a word, a count for entries, and numbers.
pub fn maps(fields: &[&str], units: impl Fn(&str) -> i64) -> Maps {
    let mut fields = fields.iter();
    let mut next = || *fields.next().expect("a field");
    [(); 4].map(|()| match next() {
        "identity" => std::array::from_fn(|c| c as u8),
        "linear" => {
            let line = [(); 2].map(|()| units(next()));
            std::array::from_fn(|c| linear(line, c))
        }
        word => {
            let count = next().parse().expect("a count");
            let v: Vec<i64> = (0..count).map(|_| units(next())).collect();
            std::array::from_fn(|c| if word == "table" { table(&v, c) } else { discrete(&v, c) })
        }
    })
}

/// The new colour of every colour at every alpha, 256 for each alpha, for R, G and B.
type Tables = [[u8; 65_536]; 3];

pub struct Curve {
    maps: Maps,
    straight: Straight,
    tables: Option<Box<Tables>>,
}

impl Curve {
    /// For so many pixels. Making the tables takes what they save on 80,000 of them. They convert too, where a conversion is given.
    pub fn new(maps: Maps, pixels: usize, conversion: Option<&Conversion>) -> Curve {
        let mut curve = Curve { maps, straight: Straight::new(), tables: None };
        if pixels > 80_000 {
            curve.tables = Some(curve.tables_after(conversion));
        }
        curve
    }

    fn tables_after(&self, conversion: Option<&Conversion>) -> Box<Tables> {
        let mut tables: Box<Tables> = vec![[0; 65_536]; 3].try_into().expect("three");
        for a in 0..256 {
            let mut pixels: Vec<[u8; 4]> = (0..=a).map(|c| [c as u8, 0, 0, a as u8]).collect();
            if let Some(conversion) = conversion {
                let stored = pixels.concat();
                conversion.row(&stored, pixels.as_flattened_mut());
            }
            for (c, pixel) in pixels.iter().enumerate() {
                let [straight, ..] = self.straight.of(pixel);
                for (table, map) in tables.iter_mut().zip(&self.maps) {
                    table[256 * a + c] = div255(map[straight] as u16 * self.maps[3][a] as u16);
                }
            }
        }
        tables
    }

    /// Whether rows come to it as they are kept: its tables have the conversion in them.
    pub fn converts(&self) -> bool {
        self.tables.is_some()
    }

    pub fn row(&self, src: &[u8], dst: &mut [u8]) {
        let [r, g, b, a] = &self.maps;
        match &self.tables {
            Some(tables) => look_up(tables, a, src, dst),
            None => transform(src, dst, |p| {
                let straight = self.straight.of(p);
                [r[straight[0]], g[straight[1]], b[straight[2]], a[straight[3]]]
            }),
        }
    }
}

fn look_up([red, green, blue]: &Tables, alpha: &[u8; 256], src: &[u8], dst: &mut [u8]) {
    for (dst, src) in dst.as_chunks_mut::<4>().0.iter_mut().zip(src.as_chunks::<4>().0) {
        let [r, g, b, a] = src.map(usize::from);
        *dst = [red[256 * a + r], green[256 * a + g], blue[256 * a + b], alpha[a]];
    }
}
