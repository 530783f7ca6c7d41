//! Random convolutions, and lines of text that need little chance.

use super::spoil;
use crate::convolve::{Convolution, Edge, MOST_ORDER};
use crate::fault::Fault;
use crate::number::{judge, Number};
use crate::random::Random;
use crate::step::COEFFICIENT;
use std::sync::OnceLock;

/// An order: often 3; of a wild one also none or one too many.
fn order(random: &mut Random, wild: bool) -> usize {
    match random.below(48) {
        0 if wild => 0,
        1 if wild => MOST_ORDER + 1,
        2..=15 => 3,
        _ => 1 + random.below(MOST_ORDER),
    }
}

/// A place in the kernel; of a wild one also a place beyond it.
fn target(random: &mut Random, order: usize, wild: bool) -> usize {
    if wild && random.once_in(16) {
        return random.pick(&[order, order + 1, 9999]);
    }
    random.below(order.max(1))
}

pub fn convolution(random: &mut Random, wild: bool) -> Convolution {
    let (columns, rows) = (order(random, wild), order(random, wild));
    Convolution {
        columns,
        rows,
        divided: random.once_in(2),
        column: target(random, columns, wild),
        row: target(random, rows, wild),
        preserve: random.once_in(3),
        edge: random.pick(&[Edge::Duplicate, Edge::Wrap, Edge::None]),
    }
}

fn parts(n: i64, of: i64) -> Number {
    Number::Decimal(10_000 * n / of)
}

/// Whole values, mostly few that are not 0; a sharpening kernel at times; now and then values whose units do not sum to
/// what the values themselves do.
fn values(random: &mut Random, values: &mut [Number]) {
    let style = random.below(8);
    for value in values.iter_mut() {
        *value = match style {
            0 => Number::Decimal(1),
            1 => parts(-1, 1),
            2 | 3 => parts(random.within(-3, 5), 1),
            4 => parts(random.within(-8, 8), 4),
            _ if random.once_in(2) => parts(0, 1),
            _ => parts(random.within(-2, 4), 1),
        };
    }
    let (count, one) = (values.len() as i64, random.below(values.len()));
    match style {
        0 => values[one] = Number::Decimal(1 - count),
        1 => values[one] = parts(count, 1),
        _ => {}
    }
}

/// Makes the numbers of a convolution such that they show, three times in four: results that are not all limited, many of
/// them halfway between two bytes, divisors below zero too. A given divisor is not 0 units, unless it is a wild one's.
pub fn number(random: &mut Random, shape: Convolution, numbers: &mut [Number], wild: bool) {
    let end = numbers.len() - 1;
    if !random.once_in(4) && shape.values() > 0 {
        values(random, &mut numbers[..shape.values()]);
        numbers[end] = match random.below(4) {
            0 => parts(random.within(-4, 4), 4),
            1 => Number::Decimal(random.within(-10_000, 10_000)),
            _ => parts(0, 1),
        };
        if shape.divided {
            numbers[end - 1] = match random.below(4) {
                0 => parts(random.pick(&[-4, -2, -1, 1, 2, 4, 8]), 1),
                1 => parts(random.pick(&[-7, -3, 3, 5, 9]), 2),
                2 => Number::Decimal(random.within(-90_000, 90_000)),
                _ => parts(random.within(-9, 9), 1),
            };
        }
    }
    if !shape.divided {
        return;
    }
    let units = judge(numbers[end - 1], COEFFICIENT, Fault::None);
    if !wild && units == Ok(0) {
        numbers[end - 1] = parts(random.pick(&[-1, 1, 2]), 1);
    } else if wild && random.once_in(6) {
        // Half a unit is 0 units, the next single above it is 1; zero with a minus is 0 as well.
        numbers[end - 1] = Number::Single(random.pick(&[0, 0x8000_0000, 1, 0x3700_0000, 0xb700_0000, 0x3700_0001]));
        if random.once_in(2) {
            numbers[end] = random.pick(&[Number::Single(0x7fc0_0000), Number::Decimal(2_560_001)]);
        }
    }
}

/// What may stand after the input of a `conv` line, and what may not, with spaces for tabs; `_` is an empty field, `*` stands
/// for 25 values.
const LISTED: [&str; 46] = [
    "1 1 1 _ 0 0 0 false none",
    "1 1 1 1 0 0 0 true wrap linear",
    "1 1 1 1 0 0 0 true duplicate srgb",
    "1 1 1 _ 0 0 0 false none _",
    "1 1 1 _ 0 0 0 false none srgb srgb",
    "1 1 1 _ 0 0 0 false none 0",
    "1 1 1 _ 0 0 0 false",
    "1 1 1 _ 0 0 0 false srgb",
    "1 1 1 0 0 0 false none",
    "1 1 1 _ 0 0 false none",
    "1 1 1 _ _ 0 0 false none",
    "1 1 _ _ 0 0 0 false none",
    "1 1 1 _ 0 _ 0 false none",
    "1 1 1 _ 0 0 0 _ none",
    "1 1 1 _ 0 0 0 false _",
    "1 1 1 0 0 0 0 false none",
    "1 1 1 -0 0 0 0 false none",
    "1 1 1 x37000000 0 0 0 false none",
    "1 1 1 x37000001 0 0 0 false none",
    "1 1 1 0 x7fc00000 0 0 false none",
    "1 1 1 0 256.0001 0 0 false none",
    "1 1 1 -256 256 0 0 false none",
    "1 1 -256 256 -256 0 0 false none",
    "1 1 1 256.0001 0 0 0 false none",
    "1 1 256.0001 0 0 0 0 false none",
    "1 1 x7fc00000 0 0 1 0 false none",
    "1 1 1 1 0 1 0 false none",
    "1 1 1 1 0 0 1 false none",
    "1 1 1 1 0 9999 0 false none",
    "1 1 1 1 0 10000 0 false none",
    "1 1 1 1 0 00 0 false none",
    "1 1 1 1 0 0.0 0 false none",
    "2 1 1 2 _ 0 1 0 true none",
    "2 1 1 2 _ 0 0 1 true none",
    "1 2 1 2 _ 0 0 1 true none",
    "1 2 1 2 _ 0 1 0 true none",
    "2 2 1 2 3 _ 0 0 0 true none",
    "2 2 1 2 3 4 5 _ 0 0 0 true none",
    "0 1 _ 0 0 0 true none",
    "1 0 _ 0 0 0 true none",
    "5 5 * _ 0 4 4 true wrap",
    "5 5 * 25 0.5 0 0 false duplicate srgb",
    "6 1 1 1 1 1 1 1 _ 0 0 0 false none",
    "1 6 1 1 1 1 1 1 _ 0 0 0 false none",
    "1 1 1 _ 0 0 0 TRUE Wrap",
    "1 1 1 _ 0 0 0 1 none",
];

/// A step line on one pixel, without its line feed.
fn line(rest: &str) -> Vec<u8> {
    let values = (1..26).map(|n| n.to_string()).collect::<Vec<_>>().join(" ");
    let fields = format!("conv 0 0 1 1 src {}", rest.replace('*', &values));
    fields.replace(' ', "\t").replace('_', "").into_bytes()
}

pub fn listed() -> Vec<Vec<u8>> {
    LISTED.iter().map(|rest| line(rest)).collect()
}

/// A short line with every field changed in every way.
pub fn spoilt() -> &'static [Vec<u8>] {
    static LINES: OnceLock<Vec<Vec<u8>>> = OnceLock::new();
    LINES.get_or_init(|| spoil::every_field(&line("1 2 2 1 4 0.25 0 1 true wrap srgb")))
}
