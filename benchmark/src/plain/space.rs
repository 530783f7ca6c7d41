//! Working spaces: rows of pixels brought into the other space.
use super::matrix::{transform, Straight};
use std::sync::OnceLock;

#[derive(Clone, Copy, PartialEq, Eq, Debug)]
pub enum Space {
    Srgb,
    Linear,
}

/// The curve of IEC 61966-2-1 into a space.
fn curve(to: Space, c: f64) -> f64 {
    match to {
        Space::Linear if c <= 0.04045 => c / 12.92,
        Space::Linear => ((c + 0.055) / 1.055).powf(2.4),
        Space::Srgb if c <= 0.003_130_8 => 12.92 * c,
        Space::Srgb => 1.055 * c.powf(1.0 / 2.4) - 0.055,
    }
}

type Table = [u8; 256];

/// A constant in a program that is to be fast; worked out once here.
fn table(to: Space) -> &'static Table {
    static TABLES: OnceLock<[Table; 2]> = OnceLock::new();
    let all = TABLES.get_or_init(|| {
        [Space::Srgb, Space::Linear].map(|to| std::array::from_fn(|i| (255.0 * curve(to, i as f64 / 255.0)).round() as u8))
    });
    &all[to as usize]
}

/// Conversion into a space from the other one.
pub struct Conversion {
    straight: Straight,
    table: &'static Table,
}

impl Conversion {
    pub fn new(to: Space) -> Conversion {
        Conversion { straight: Straight::new(), table: table(to) }
    }

    /// Each pixel unpremultiplied, looked up, premultiplied.
    pub fn row(&self, src: &[u8], dst: &mut [u8]) {
        transform(src, dst, |p| {
            let [r, g, b, _] = self.straight.of(p);
            [self.table[r], self.table[g], self.table[b], p[3]]
        });
    }
}
