//! Random numbers of a step, at every edge of their range and around it.

use crate::fault::Fault;
use crate::number::{Number, Range, UNIT};
use crate::random::Random;
use crate::window::box_size;

/// The single nearest to over / under.
fn single(over: i64, under: i64) -> Number {
    Number::Single((over as f32 / under as f32).to_bits())
}

fn whole(random: &mut Random, n: i64) -> Number {
    if random.once_in(3) {
        single(n, 1)
    } else {
        Number::Decimal(10_000 * n)
    }
}

/// A number that its range allows.
pub fn allowed(random: &mut Random, range: Range) -> Number {
    if random.once_in(if range.high == 32 { 3 } else { 6 }) {
        return edge(random, range);
    }
    // Small sizes show more on a small canvas.
    let most = range.high.min(random.pick(&[1, 2, 4, 4, 1024]));
    let least = range.low.max(-most);
    if range.whole || random.once_in(4) {
        let n = random.within(least, most);
        return whole(random, n);
    }
    match random.below(3) {
        0 => Number::Decimal(random.within(10_000 * least, 10_000 * most)),
        // Odd halves of units are ties.
        1 => single(random.within(2 * UNIT * least, 2 * UNIT * most), 2 * UNIT),
        _ => single(random.within(1000 * least, 1000 * most), 1000),
    }
}

/// The ends of the range and numbers very near to them, to zero and to a unit's half.
fn edge(random: &mut Random, range: Range) -> Number {
    if random.once_in(2) {
        match range.high {
            1 => return opacity_edge(random),
            32 => return box_edge(random),
            256 => return coefficient_edge(random),
            _ => {}
        }
    }
    let high = (range.high as f32).to_bits();
    let inside = [
        Number::Single(high - 1),
        Number::Single(1),
        Number::Single(0x3380_0000),
        Number::Decimal(1),
        Number::Single(0x3700_0000),
    ];
    match random.below(4) {
        0 => whole(random, range.high),
        1 => whole(random, range.low),
        2 => Number::Single(random.pick(&[0, 0x8000_0000])),
        _ if range.whole => whole(random, range.high - 1),
        _ => random.pick(&inside),
    }
}

/// Opacities at which a flood's alpha passes to the next byte, and the ties beside them.
fn opacity_edge(random: &mut Random) -> Number {
    let units = (UNIT * random.within(0, 254) + UNIT / 2) / 255;
    single(2 * units + random.within(-1, 2), 2 * UNIT)
}

/// Deviations at which a blur's box grows: the last units before, the first after, and the tie between them.
fn box_edge(random: &mut Random) -> Number {
    let d = random.within(1, 60);
    let (mut below, mut first) = (0, 32 * UNIT);
    while below + 1 < first {
        let middle = (below + first) / 2;
        if box_size(middle, Fault::None) < d {
            below = middle
        } else {
            first = middle
        }
    }
    single(2 * first - random.within(0, 2), 2 * UNIT)
}

/// Coefficients at which 255 times their units, rounded, passes to the next byte, and the ties beside them.
fn coefficient_edge(random: &mut Random) -> Number {
    let units = (UNIT * random.within(0, 255) + UNIT / 2) / 255;
    single(random.pick(&[-1, 1]) * (2 * units + random.within(-1, 2)), 2 * UNIT)
}

/// Two numbers, the first a tie, whose units together lie where 255 times the sum, rounded, passes to the next byte.
pub fn fine_pair(random: &mut Random) -> [Number; 2] {
    let sum = (UNIT * random.within(0, 255) + UNIT / 2) / 255;
    let below = random.within(-2 * UNIT, 2 * UNIT);
    [single(2 * below + 1, 2 * UNIT), single(sum - below + random.within(-1, 1), UNIT)]
}

/// An s at which saturate's own coefficients lie halfway between two units: 0.213 · (1 − s) is 106.5 units at 65,036.
pub fn saturate_half(random: &mut Random) -> Number {
    let below = random.within(0, 65);
    single(65_036 - 1000 * random.pick(&[0, 0, below]), UNIT)
}

/// A number that may be refused.
pub fn wild(random: &mut Random, range: Range) -> Number {
    let high = (range.high as f32).to_bits();
    let ten_thousandths = 10_000 * random.pick(&[range.low, range.high, 0]);
    match random.below(8) {
        0 => {
            Number::Single(random.pick(&[0x7fc0_0000, 0x7f80_0001, 0xffc0_0000, 0xffff_ffff, 0x7f80_0000, 0xff80_0000]))
        }
        1 => Number::Single(random.pick(&[
            high,
            high + 1,
            high - 1,
            high | 0x8000_0000,
            (high + 1) | 0x8000_0000,
            high + 0x80_0000,
        ])),
        2 => Number::Single(random.pick(&[
            0x8000_0001,
            0x8000_0000,
            1,
            0x807f_ffff,
            0x8080_0000,
            0xb680_0000,
            0xb700_0000,
            0x7f7f_ffff,
            0xff7f_ffff,
        ])),
        3 => Number::Decimal(ten_thousandths + random.within(-1, 1)),
        4 => Number::Decimal(random.within(-999_999_999, 999_999_999)),
        5 => Number::Decimal(5_000 * random.within(-5, 5)),
        // One single away from a whole number: not whole before rounding, whole after.
        6 => Number::Single((random.within(2, 60) as f32).to_bits() + random.pick(&[0, 1])),
        _ => Number::Single(random.word() as u32),
    }
}
