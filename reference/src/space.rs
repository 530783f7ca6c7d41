//! Working spaces (RULES 4.5): the curve of IEC 61966-2-1, its two tables, and the conversion of a pixel.
//!
//! The tables are worked out in doubles. That is safe: no place of the curve comes nearer than 1/2,000 to the middle between
//! two bytes, and doubles are off by less than a millionth of that (the tests below).

use crate::fault::Fault;
use crate::picture::Picture;
use crate::pixel::{premultiply, unpremultiply, Pixel};
use std::sync::OnceLock;

/// "Each step gets a working space, sRGB or linear."
#[derive(Clone, Copy, PartialEq, Eq, Debug)]
pub enum Space {
    Srgb,
    Linear,
}

/// The spaces and their words in text.
pub const SPACES: [(&str, Space); 2] = [("srgb", Space::Srgb), ("linear", Space::Linear)];

impl Space {
    pub fn word(self) -> &'static str {
        SPACES.iter().find(|(_, space)| *space == self).expect("every space has a word").0
    }

    fn other(self) -> Space {
        match self {
            Space::Srgb => Space::Linear,
            Space::Linear => Space::Srgb,
        }
    }
}

/// The curve into a space, from 0 to 1.
fn curve(to: Space, c: f64) -> f64 {
    match to {
        Space::Linear if c <= 0.04045 => c / 12.92,
        Space::Linear => ((c + 0.055) / 1.055).powf(2.4),
        Space::Srgb if c <= 0.003_130_8 => 12.92 * c,
        Space::Srgb => 1.055 * c.powf(1.0 / 2.4) - 0.055,
    }
}

/// A power of 2.2, which some take for the curve.
fn power(to: Space, c: f64) -> f64 {
    match to {
        Space::Linear => c.powf(2.2),
        Space::Srgb => c.powf(1.0 / 2.2),
    }
}

type Table = [u8; 256];

fn table_of(value: impl Fn(f64) -> f64, rounded: impl Fn(f64) -> f64) -> Table {
    std::array::from_fn(|i| rounded(255.0 * value(i as f64 / 255.0)) as u8)
}

/// "Each table entry is the nearest byte to the IEC 61966-2-1 curve."
fn table(to: Space, fault: Fault) -> &'static Table {
    static ALL: OnceLock<[[Table; 2]; 3]> = OnceLock::new();
    let both = |one: fn(Space) -> Table| [one(Space::Srgb), one(Space::Linear)];
    let all = ALL.get_or_init(|| {
        [
            both(|to| table_of(|c| curve(to, c), f64::round)),
            both(|to| table_of(|c| curve(to, c), f64::floor)),
            both(|to| table_of(|c| power(to, c), f64::round)),
        ]
    });
    let made = match fault {
        Fault::TableDown => 1,
        Fault::PowerAlone => 2,
        _ => 0,
    };
    &all[made][to as usize]
}

/// A straight colour in the other space. A seeded fault may leave one above 255.
pub fn straight(to: Space, colour: i128, fault: Fault) -> i128 {
    let to = if fault.is(Fault::ConvertedBack) { to.other() } else { to };
    i128::from(table(to, fault)[colour.min(255) as usize])
}

/// "Convert by unpremultiplying, one of two tables of 256 bytes, premultiplying."
pub fn convert(to: Space, p: Pixel, fault: Fault) -> Pixel {
    let alpha = i128::from(p[3]);
    let [r, g, b] = [0, 1, 2].map(|i| {
        let colour = i128::from(p[i]);
        let new = match fault {
            Fault::ConvertedPremultiplied => straight(to, colour, fault),
            _ => premultiply(straight(to, unpremultiply(colour, alpha, fault), fault), alpha, fault),
        };
        new.min(255) as u8
    });
    [r, g, b, p[3]]
}

/// A pixel of one space in another.
pub fn pixel(from: Space, to: Space, p: Pixel, fault: Fault) -> Pixel {
    if from == to {
        p
    } else {
        convert(to, p, fault)
    }
}

/// A picture of one space in another.
pub fn picture(from: Space, to: Space, picture: &Picture, fault: Fault) -> Picture {
    Picture::of(picture.width, picture.height, |x, y| pixel(from, to, picture.at(x, y), fault))
}

#[cfg(test)]
mod tests {
    use super::*;
    use crate::wide::Wide;

    const BOTH: [Space; 2] = [Space::Srgb, Space::Linear];

    fn entry(to: Space, i: u64) -> u64 {
        u64::from(table(to, Fault::None)[i as usize])
    }

    /// Doubles decide nothing wrongly: no value lies within 1/2,000 of the middle between two bytes, and other ways to
    /// the same powers agree with `powf` to 1/1,000,000,000.
    #[test]
    fn no_entry_is_near_a_tie() {
        for to in BOTH {
            for i in 0..256 {
                let c = f64::from(i) / 255.0;
                let value = 255.0 * curve(to, c);
                assert!((value.fract() - 0.5).abs() > 0.0005, "{to:?} {i}: {value}");
                let other = match to {
                    Space::Linear if c > 0.04045 => (2.4 * ((c + 0.055) / 1.055).ln()).exp(),
                    Space::Srgb if c > 0.003_130_8 => 1.055 * c.powi(5).sqrt().sqrt().cbrt() - 0.055,
                    _ => value / 255.0,
                };
                assert!((value - 255.0 * other).abs() < 1e-9, "{to:?} {i}");
            }
        }
    }

    fn to_the(power: usize, base: u64, times: Wide) -> Wide {
        (0..power).fold(times, |n, _| n.times(base))
    }

    /// Whether the curve at byte i is at least h/510, by whole numbers alone: with s = S/510, (s + 0.055)/1.055 is
    /// (20·S + 561)/10,761, and x^2.4 ≥ y says x^12 ≥ y^5.
    fn reaches(to: Space, i: u64, h: u64) -> bool {
        let one = Wide::new(1);
        let (curve, bound) = match to {
            Space::Linear if 100_000 * i <= 4_045 * 255 => return 100 * 510 * i >= 255 * 1292 * h,
            Space::Srgb if 10_000_000 * i <= 31_308 * 255 => return 510 * 1292 * i >= 255 * 100 * h,
            Space::Linear => (to_the(12, 40 * i + 561, to_the(5, 510, one)), to_the(5, h, to_the(12, 10_761, one))),
            Space::Srgb => (to_the(5, 2 * i, to_the(12, 10_761, one)), to_the(12, 20 * h + 561, to_the(5, 510, one))),
        };
        curve >= bound
    }

    /// Each entry b: the curve is at least b − 1/2 and below b + 1/2.
    #[test]
    fn entries_are_the_nearest_bytes_in_whole_numbers() {
        for to in BOTH {
            for i in 0..256 {
                let b = entry(to, i);
                assert!(b == 0 || reaches(to, i, 2 * b - 1), "{to:?} {i}");
                assert!(!reaches(to, i, 2 * b + 1), "{to:?} {i}");
            }
        }
    }

    /// Values worked out apart: 128/255 is 0.50196, (0.55696/1.055)^2.4 is 0.21586, times 255 is 55.04.
    #[test]
    fn entries_by_hand() {
        let linear = [(0, 0), (6, 0), (7, 1), (10, 1), (11, 1), (128, 55), (188, 128), (255, 255)];
        let srgb = [(0, 0), (1, 13), (55, 128), (127, 187), (128, 188), (255, 255)];
        for (to, all) in [(Space::Linear, &linear[..]), (Space::Srgb, &srgb[..])] {
            for (i, b) in all {
                assert_eq!(entry(to, *i), *b, "{to:?} {i}");
            }
        }
    }

    #[test]
    fn entries_rise() {
        for to in BOTH {
            assert!(table(to, Fault::None).windows(2).all(|two| two[0] <= two[1]));
        }
        let back = (0..256).filter(|i| entry(Space::Srgb, entry(Space::Linear, *i)) == *i).count();
        assert_eq!(back, 183);
    }

    /// Transparent black, and any pixel without colour, as the source's alpha has them: a conversion changes nothing. An
    /// alpha input that is converted is no fault.
    #[test]
    fn black_stays() {
        for to in BOTH {
            for alpha in 0..=255 {
                assert_eq!(convert(to, [0, 0, 0, alpha], Fault::None), [0, 0, 0, alpha]);
            }
        }
    }

    /// What is valid stays valid, and full colour stays full.
    #[test]
    fn colours_stay_within_alpha() {
        for to in BOTH {
            for alpha in 0..=255 {
                for colour in 0..=alpha {
                    let p = convert(to, [colour, 0, alpha, alpha], Fault::None);
                    assert!(p[0] <= alpha && p[1] == 0 && p[2] == alpha && p[3] == alpha);
                }
            }
        }
    }
}
