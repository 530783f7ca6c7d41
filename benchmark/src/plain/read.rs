//! Steps from lines of text. The lines are trusted: the benchmark's sheets are constants, and a malformed one stops it.
use super::convolve;
use super::curve;
use super::rect::Rect;
use super::space::{Conversion, Space};
use super::step::{Input, Operator, Step, Work};

pub fn steps(lines: &[u8]) -> Vec<Step> {
    std::str::from_utf8(lines).expect("a text").lines().map(step).collect()
}

fn step(line: &str) -> Step {
    let mut fields = line.split('\t');
    let kind = fields.next().expect("a kind");
    let [x, y, width, height] = [(); 4].map(|()| fields.next().expect("a region").parse().expect("a whole number"));
    let mut rest: Vec<&str> = fields.collect();
    let space = space(&mut rest);
    let inputs = match kind {
        "flood" => 0,
        "over" | "in" | "out" | "atop" | "xor" | "arith" => 2,
        "merge" => rest.len(),
        _ => 1,
    };
    let numbers = rest.split_off(inputs);
    let (region, inputs) = (Rect::new(x, y, width, height), rest.into_iter().map(input).collect());
    Step { work: in_space(work(kind, &numbers), space), region, inputs, space }
}

/// Takes the last field where it is a space. The words are no inputs and no numbers, and a curve's own `linear` has numbers after it.
fn space(fields: &mut Vec<&str>) -> Space {
    let named = match fields.last() {
        Some(&"srgb") => Space::Srgb,
        Some(&"linear") => Space::Linear,
        _ => return Space::Linear,
    };
    fields.pop();
    named
}

/// A flood is made in sRGB.
fn in_space(work: Work, space: Space) -> Work {
    match (work, space) {
        (Work::Flood(pixel), Space::Linear) => {
            let mut converted = [0; 4];
            Conversion::new(space).row(&pixel, &mut converted);
            Work::Flood(converted)
        }
        (work, _) => work,
    }
}

fn input(field: &str) -> Input {
    match field {
        "src" => Input::Source,
        "alpha" => Input::Alpha,
        layer => Input::Layer(layer.parse().expect("a layer")),
    }
}

fn work(kind: &str, numbers: &[&str]) -> Work {
    let unit = |n: usize| units(numbers[n]);
    let whole = |n: usize| units(numbers[n]) / 65_536;
    match kind {
        "flood" => Work::Flood(flood([0, 1, 2].map(|n| numbers[n].parse().expect("a byte")), unit(3))),
        "offset" => Work::Offset([0, 1].map(|n| whole(n) as i32)),
        "blur" => Work::Blur([0, 1].map(|n| box_size(unit(n)))),
        "erode" => Work::Erode([0, 1].map(|n| whole(n) as usize)),
        "dilate" => Work::Dilate([0, 1].map(|n| whole(n) as usize)),
        "matrix" => Work::Matrix(std::array::from_fn(unit)),
        "saturate" => Work::Matrix(saturate(unit(0))),
        "lumalpha" => Work::Luminance,
        "curve" => Work::Curve(Box::new(curve::maps(numbers, units))),
        "over" => Work::Composite(Operator::Over),
        "in" => Work::Composite(Operator::In),
        "out" => Work::Composite(Operator::Out),
        "atop" => Work::Composite(Operator::Atop),
        "xor" => Work::Composite(Operator::Xor),
        "arith" => Work::Arithmetic(std::array::from_fn(unit)),
        "merge" => Work::Merge,
        "conv" => Work::Convolve(Box::new(convolve::convolution(numbers, units))),
        _ => panic!("no such kind: {kind}"),
    }
}

/// over ÷ under to the nearest whole, halves away from zero: saturate's coefficients. A decimal is never halfway between two units.
fn nearest(over: i64, under: i64) -> i64 {
    over.signum() * ((2 * over.abs() + under) / (2 * under))
}

/// A number in units of 1/65,536.
pub fn units(field: &str) -> i64 {
    if let Some(bits) = field.strip_prefix('x') {
        let single = f32::from_bits(u32::from_str_radix(bits, 16).expect("the bits of a single"));
        return (f64::from(single) * 65_536.0).round_ties_even() as i64;
    }
    let (sign, size) = field.strip_prefix('-').map_or((1, field), |size| (-1, size));
    let (ones, parts) = size.split_once('.').unwrap_or((size, "0"));
    let whole = |digits: &str| digits.parse::<i64>().expect("digits");
    let tenthousandths = 10_000 * whole(ones) + whole(parts) * 10_i64.pow(4 - parts.len() as u32);
    nearest(sign * tenthousandths * 65_536, 10_000)
}

fn flood(colour: [u32; 3], opacity: i64) -> [u8; 4] {
    let alpha = (255 * opacity as u32 + 32_768) / 65_536;
    let [r, g, b] = colour.map(|u| ((u * alpha + 127) / 255) as u8);
    [r, g, b, alpha as u8]
}

fn box_size(units: i64) -> usize {
    ((units * 18_799_712 + 5_000_000 * 65_536) / (10_000_000 * 65_536)) as usize
}

/// What stands alone in a coefficient and what goes with s, in thousandths.
const SATURATE: [[(i64, i64); 3]; 3] =
    [[(213, 787), (715, -715), (72, -72)], [(213, -213), (715, 285), (72, -72)], [(213, -213), (715, -715), (72, 928)]];

fn saturate(s: i64) -> [i64; 20] {
    let mut matrix = [0; 20];
    for (row, parts) in SATURATE.iter().enumerate() {
        for (column, (alone, with_s)) in parts.iter().enumerate() {
            matrix[5 * row + column] = nearest(alone * 65_536 + with_s * s, 1000);
        }
    }
    matrix[18] = 65_536;
    matrix
}
