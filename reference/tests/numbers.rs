//! Numbers at the edges: refusals 8 to 11 on the exact value, then rounding.

use reference::fault::Fault;
use reference::number::{judge, Number, Range};
use reference::random::Random;

const FRACTION: Range = Range { low: 0, high: 1, whole: false };
const DEVIATION: Range = Range { low: 0, high: 32, whole: false };
const OFFSET: Range = Range { low: -1024, high: 1024, whole: true };
const COEFFICIENT: Range = Range { low: -256, high: 256, whole: false };
const RADIUS: Range = Range { low: 0, high: 64, whole: true };

fn units(number: Number, range: Range) -> Result<i64, u8> {
    judge(number, range, Fault::None)
}

fn single(value: f32) -> Number {
    Number::Single(value.to_bits())
}

#[test]
fn order_of_the_checks() {
    assert_eq!(units(Number::Single(0x7fc0_0000), DEVIATION), Err(8));
    assert_eq!(units(Number::Single(0xff80_0000), DEVIATION), Err(8));
    assert_eq!(units(Number::Decimal(-400_001), RADIUS), Err(9));
    assert_eq!(units(Number::Decimal(-10_240_001), OFFSET), Err(10));
    assert_eq!(units(Number::Decimal(640_001), RADIUS), Err(10));
    assert_eq!(units(Number::Decimal(5000), RADIUS), Err(11));
    assert_eq!(units(Number::Decimal(-5000), RADIUS), Err(9));
}

#[test]
fn smallest_singles() {
    assert_eq!(units(Number::Single(1), DEVIATION), Ok(0));
    assert_eq!(units(Number::Single(0x8000_0001), DEVIATION), Err(9));
    assert_eq!(units(Number::Single(0x8000_0001), COEFFICIENT), Ok(0));
    assert_eq!(units(Number::Single(0x8000_0000), RADIUS), Ok(0));
    assert_eq!(units(Number::Single(1), RADIUS), Err(11));
}

#[test]
fn largest_singles() {
    assert_eq!(units(Number::Single(0x7f7f_ffff), COEFFICIENT), Err(10));
    assert_eq!(units(Number::Single(0xff7f_ffff), COEFFICIENT), Err(10));
    assert_eq!(units(Number::Single(0xff7f_ffff), DEVIATION), Err(9));
    assert_eq!(units(single(256.0), COEFFICIENT), Ok(16_777_216));
    assert_eq!(units(Number::Single(256.0_f32.to_bits() + 1), COEFFICIENT), Err(10));
    assert_eq!(units(Number::Single((-256.0_f32).to_bits() + 1), COEFFICIENT), Err(10));
}

#[test]
fn halves_go_to_the_even_unit() {
    for (halves, expected) in [(1, 0), (3, 2), (5, 2), (7, 4), (2, 1), (131_069, 65_534), (131_071, 65_536)] {
        let value = halves as f32 / 131_072.0;
        assert_eq!(units(single(value), COEFFICIENT), Ok(expected), "{halves}");
        assert_eq!(units(single(-value), COEFFICIENT), Ok(-expected), "-{halves}");
        assert_eq!(units(single(value), FRACTION), Ok(expected), "{halves}");
        assert_eq!(units(single(32.0 - value), DEVIATION), Ok(2_097_152 - expected), "32 - {halves}");
    }
}

#[test]
fn beside_a_half_the_nearer_one() {
    for (halves, below, above) in [(1.0_f32, 0, 1), (3.0, 1, 2)] {
        let bits = (halves / 131_072.0).to_bits();
        assert_eq!(units(Number::Single(bits - 1), COEFFICIENT), Ok(below));
        assert_eq!(units(Number::Single(bits + 1), COEFFICIENT), Ok(above));
    }
    assert_eq!(units(Number::Decimal(1), COEFFICIENT), Ok(7));
    assert_eq!(units(Number::Decimal(-1), COEFFICIENT), Ok(-7));
}

/// A half that rounding would take to zero, to a whole number or to a range's end is refused before it is rounded.
#[test]
fn halves_are_judged_before_they_are_rounded() {
    let half = 1.0 / 131_072.0;
    assert_eq!(units(single(-half), FRACTION), Err(9));
    assert_eq!(units(single(32.0 + half), DEVIATION), Err(10));
    assert_eq!(units(single(3.0 + half), RADIUS), Err(11));
}

#[test]
fn nearly_whole_is_not_whole() {
    assert_eq!(units(Number::Single(3.0_f32.to_bits() + 1), RADIUS), Err(11));
    assert_eq!(units(Number::Single(3.0_f32.to_bits()), RADIUS), Ok(196_608));
    assert_eq!(units(Number::Decimal(-10_240_000), OFFSET), Ok(-67_108_864));
    assert_eq!(units(Number::Decimal(10_001), OFFSET), Err(11));
}

/// A double holds every single exactly, and 65,536 times it: another way to the same units.
#[test]
fn singles_agree_with_doubles() {
    let mut random = Random::new(3);
    for _ in 0..20_000 {
        let bits = random.word() as u32;
        let value = f64::from(f32::from_bits(bits));
        let rule = if !value.is_finite() {
            Err(8)
        } else if value.abs() > 256.0 {
            Err(10)
        } else {
            Ok((value * 65_536.0).round_ties_even() as i64)
        };
        assert_eq!(units(Number::Single(bits), COEFFICIENT), rule, "{bits:08x}");
    }
}

/// The two units about a tie: the answer is the one that two divides.
#[test]
fn ties_of_every_size() {
    let mut random = Random::new(5);
    for _ in 0..5_000 {
        let below = random.within(-8_388_608, 8_388_607);
        let even = if below % 2 == 0 { below } else { below + 1 };
        assert_eq!(units(single((2 * below + 1) as f32 / 131_072.0), COEFFICIENT), Ok(even), "{below}");
    }
}

#[test]
fn decimals_agree_with_whole_arithmetic() {
    let mut random = Random::new(4);
    for _ in 0..5_000 {
        let n = random.within(-3_000_000, 3_000_000);
        let size = (2 * 65_536 * n.abs() + 10_000) / 20_000;
        let rule = if n.abs() > 2_560_000 { Err(10) } else { Ok(n.signum() * size) };
        assert_eq!(units(Number::Decimal(n), COEFFICIENT), rule, "{n}");
    }
}
