//! The arithmetic of one pixel (RULES 4 and 5), literal. Channels are wide integers, "÷" rounds down.

use crate::fault::Fault;
use crate::number::UNIT;

/// "A pixel is four bytes R, G, B, A, premultiplied."
pub type Pixel = [u8; 4];

pub const CLEAR: Pixel = [0; 4];

#[derive(Clone, Copy, PartialEq, Eq, Debug)]
pub enum Operator {
    Over,
    In,
    Out,
    Atop,
    Xor,
}

fn down(over: i128, under: i128) -> i128 {
    over.div_euclid(under)
}

/// A channel as it is stored. The rules stay within a byte on valid pixels; a seeded fault may wrap.
pub fn byte(channel: i128) -> u8 {
    channel.rem_euclid(256) as u8
}

pub fn limited(channel: i128) -> i128 {
    channel.clamp(0, 255)
}

/// "(u·a + 127) ÷ 255."
pub fn premultiply(u: i128, a: i128, fault: Fault) -> i128 {
    down(u * a + fault.choose(Fault::PremultiplyHalf, 127, 128), 255)
}

/// "(255·c + (a ÷ 2)) ÷ a, and 0 where a is 0."
pub fn unpremultiply(c: i128, a: i128, fault: Fault) -> i128 {
    if a == 0 {
        return 0;
    }
    down(255 * c + fault.choose(Fault::UnpremultiplyDown, down(a, 2), 0), a)
}

/// "Alpha is (255·opacity units + 32,768) ÷ 65,536; colours are premultiplied by it."
pub fn flood(colour: [u8; 3], opacity: i64, fault: Fault) -> Pixel {
    let half = fault.choose(Fault::FloodAlphaDown, 32_768, 0);
    let a = down(255 * i128::from(opacity) + half, 65_536);
    let [r, g, b] =
        colour.map(|u| fault.choose(Fault::FloodNotPremultiplied, premultiply(i128::from(u), a, fault), i128::from(u)));
    [byte(r), byte(g), byte(b), byte(a)]
}

/// The factors FA and FB of Porter-Duff.
fn factors(operator: Operator, a: i128, b: i128, fault: Fault) -> (i128, i128) {
    match operator {
        Operator::Over => (255, 255 - a),
        Operator::In => (b, 0),
        Operator::Out => (255 - b, 0),
        Operator::Atop => (b, fault.choose(Fault::AtopAsIn, 255 - a, 0)),
        Operator::Xor => (255 - b, fault.choose(Fault::XorAsOut, 255 - a, 0)),
    }
}

/// "`in` is A (on top), `in2` is B. Each channel, alpha included, is (cA·FA + cB·FB + 127) ÷ 255."
pub fn composite(operator: Operator, a: Pixel, b: Pixel, fault: Fault) -> Pixel {
    let (a, b) = fault.choose(Fault::InputsSwapped, (a, b), (b, a));
    let (fa, fb) = factors(operator, i128::from(a[3]), i128::from(b[3]), fault);
    let channel = |i: usize| {
        let (ca, cb) = (i128::from(a[i]), i128::from(b[i]));
        let once = down(ca * fa + cb * fb + fault.choose(Fault::CompositeHalf, 127, 128), 255);
        let each = down(ca * fa + 127, 255) + down(cb * fb + 127, 255);
        byte(fault.choose(Fault::RoundedEach, once, each))
    };
    [channel(0), channel(1), channel(2), channel(3)]
}

/// "(k1·cA·cB + 255·(k2·cA + k3·cB) + 65,025·k4 + 8,355,840) ÷ 16,711,680 with k in units, limited to 0..255".
pub fn arithmetic_channel(k: [i64; 4], ca: u8, cb: u8, fault: Fault) -> i128 {
    let [k1, k2, k3, k4] = k.map(i128::from);
    let (ca, cb) = (i128::from(ca), i128::from(cb));
    let half = fault.choose(Fault::ArithmeticDown, 8_355_840, 0);
    let k4 = fault.choose(Fault::ConstantTimes255, 65_025 * k4, 255 * k4);
    limited(down(k1 * ca * cb + 255 * (k2 * ca + k3 * cb) + k4 + half, 16_711_680))
}

/// "Then each colour is lowered to the new alpha where it exceeds it."
pub fn arithmetic(k: [i64; 4], a: Pixel, b: Pixel, fault: Fault) -> Pixel {
    let (a, b) = fault.choose(Fault::ArithmeticSwapped, (a, b), (b, a));
    let alpha = arithmetic_channel(k, a[3], b[3], fault);
    let lowered = |i: usize| {
        let colour = arithmetic_channel(k, a[i], b[i], fault);
        byte(fault.choose(Fault::ColourNotLowered, colour.min(alpha), colour))
    };
    [lowered(0), lowered(1), lowered(2), byte(alpha)]
}

/// "Begin with the first input; lay each next one over what is there, rounding each time."
pub fn merge(inputs: &[Pixel], fault: Fault) -> Pixel {
    if fault.is(Fault::MergeTopDown) {
        let below = |top: Pixel, next: &Pixel| composite(Operator::Over, top, *next, fault);
        return inputs.iter().rev().skip(1).fold(inputs[inputs.len() - 1], below);
    }
    if fault.is(Fault::MergeFirstOnTop) {
        return inputs
            .iter()
            .rev()
            .copied()
            .reduce(|there, next| composite(Operator::Over, next, there, fault))
            .unwrap_or(CLEAR);
    }
    inputs.iter().copied().reduce(|there, next| composite(Operator::Over, next, there, fault)).unwrap_or(CLEAR)
}

/// Four rows of five, in units.
pub type Matrix = [i64; 20];

/// "Unpremultiply; each new channel is (m1·R + m2·G + m3·B + m4·A + 255·m5 + 32,768) ÷ 65,536, limited to 0..255;
/// premultiply by the new alpha."
pub fn matrix(m: &Matrix, p: Pixel, fault: Fault) -> Pixel {
    let alpha = i128::from(p[3]);
    let colour = |i: usize| {
        let stored = i128::from(p[i]);
        fault.choose(Fault::MatrixOnPremultiplied, unpremultiply(stored, alpha, fault), stored)
    };
    let old = [colour(0), colour(1), colour(2), alpha];
    let new = |row: usize| {
        let m =
            |column: usize| i128::from(m[fault.choose(Fault::MatrixTransposed, 5 * row + column, 4 * column + row)]);
        let constant = fault.choose(Fault::ConstantTimes256, 255, 256) * m(4);
        let half = fault.choose(Fault::MatrixDown, 32_768, 0);
        let value = down(m(0) * old[0] + m(1) * old[1] + m(2) * old[2] + m(3) * old[3] + constant + half, 65_536);
        fault.choose(Fault::MatrixWraps, limited(value), value.rem_euclid(256))
    };
    let alpha = new(3);
    let by = fault.choose(Fault::OldAlphaKept, alpha, i128::from(p[3]));
    let [r, g, b] = [0, 1, 2].map(|row| byte(premultiply(new(row), by, fault)));
    [r, g, b, byte(alpha)]
}

/// "The matrix of 002 and 003, as 0.213 + 0.787·s for R from R", in thousandths: what stands alone, what goes with s.
const SATURATE: [[(i128, i128); 3]; 3] =
    [[(213, 787), (715, -715), (72, -72)], [(213, -213), (715, 285), (72, -72)], [(213, -213), (715, -715), (72, 928)]];

/// "Each coefficient is worked exactly from s in units and rounded once to units, halves away from zero. Alpha is kept."
/// This rounding is saturate's own: numbers are rounded in another way.
pub fn saturate(s: i64, fault: Fault) -> Matrix {
    let mut m = [0; 20];
    for row in 0..3 {
        for column in 0..3 {
            let (alone, with_s) = SATURATE[row][column];
            let exact = alone * i128::from(UNIT) + with_s * i128::from(s);
            let mut size = down(2 * exact.abs() + fault.choose(Fault::SaturateDown, 1000, 0), 2000);
            if fault.is(Fault::SaturateToEven) && exact.abs() % 1000 == 500 {
                size -= size % 2;
            }
            m[5 * row + column] = (exact.signum() * size) as i64;
        }
    }
    m[18] = UNIT;
    m
}

/// "0.2125, 0.7154, 0.0721, that is 13,926, 46,884 and 4,725 units, as a matrix row for A; colours 0."
pub fn luminance(fault: Fault) -> Matrix {
    let mut m = [0; 20];
    m[15..18].copy_from_slice(&fault.choose(Fault::OtherLuminance, [13_926, 46_884, 4_725], [13_959, 46_858, 4_719]));
    m
}
