//! Random calls: sheets, pictures, buffers and rectangles, valid ones and damaged ones.

pub mod calls;
mod convolutions;
mod curves;
mod listed;
mod listed_convolutions;
mod listed_curves;
pub mod numbers;
pub mod plans;
pub mod spoil;
pub mod texts;

use crate::number::Number;
use crate::print::{self, Style};
use crate::random::Random;
use crate::space::Space;
use crate::step::{Input, Kind, Region, Step, KINDS, MOST_STEPS};

/// What is handed to a renderer.
#[derive(Clone, Debug)]
pub struct Case {
    pub width: usize,
    pub height: usize,
    pub steps: Vec<u8>,
    pub rect: Region,
    pub source: Vec<u8>,
    pub workspace: Vec<u8>,
    pub scratch: Vec<u8>,
}

impl Case {
    /// The case in words, without its pictures.
    pub fn summary(&self) -> String {
        let Region { x, y, width, height } = self.rect;
        let steps = String::from_utf8_lossy(&self.steps);
        format!("{} x {}, rectangle {x} {y} {width} {height}, steps {steps:?}", self.width, self.height)
    }
}

/// A region or rectangle inside the canvas, empty at times; whole at times.
pub fn region(random: &mut Random, width: usize, height: usize) -> Region {
    if random.once_in(3) {
        return Region { x: 0, y: 0, width, height };
    }
    let (x, y) = (random.below(width + 1), random.below(height + 1));
    Region { x, y, width: random.below(width - x + 1), height: random.below(height - y + 1) }
}

/// A region that leaves the canvas, mostly.
fn wild_region(random: &mut Random, width: usize, height: usize, far: usize) -> Region {
    let mut region = region(random, width, height);
    match random.below(7) {
        0 => region.x = width + 1,
        1 => region.y = height + 1,
        2 => region.width = width - region.x.min(width) + 1,
        3 => region.height = height - region.y.min(height) + 1,
        4 => region = Region { x: random.pick(&[width, width + 1, far]), y: 0, width: random.below(2), height },
        5 => region = Region { x: 0, y: random.pick(&[height, height + 1, far]), width, height: random.below(2) },
        _ => region = Region { x: far, y: far, width: far, height: far },
    }
    region
}

fn input(random: &mut Random, n: usize, wild: bool) -> Input {
    if wild && random.once_in(8) {
        return Input::Layer((n + random.pick(&[0, 1, 16, 64, 9999])).min(9999));
    }
    match random.below(if n == 0 { 2 } else { 5 }) {
        0 => Input::Source,
        1 => Input::Alpha,
        2 => Input::Layer(random.below(n)),
        _ => Input::Layer(n - 1),
    }
}

/// Step n of a sheet; a wild one may earn a refusal.
pub fn step(random: &mut Random, n: usize, width: usize, height: usize, wild: bool) -> Step {
    let kind = match random.pick(&KINDS).1 {
        Kind::Curve(_) => Kind::Curve(curves::transfers(random, wild)),
        Kind::Convolve(_) => Kind::Convolve(convolutions::convolution(random, wild)),
        kind => kind,
    };
    let (least, most) = kind.inputs();
    let mut inputs = random.within(least as i64, most as i64) as usize;
    if wild && kind == Kind::Merge && random.once_in(8) {
        inputs = random.pick(&[0, most + 1]);
    }
    let number = |random: &mut Random, range| {
        if wild && random.once_in(4) {
            numbers::wild(random, range)
        } else {
            numbers::allowed(random, range)
        }
    };
    let mut numbers: Vec<Number> = kind.ranges().map(|range| number(random, range)).collect();
    if !wild && random.once_in(2) {
        plain_numbers(random, kind, &mut numbers);
    }
    if let Kind::Convolve(shape) = kind {
        convolutions::number(random, shape, &mut numbers, wild);
    }
    Step {
        kind,
        region: if wild && random.once_in(6) {
            wild_region(random, width, height, 9999)
        } else {
            region(random, width, height)
        },
        inputs: (0..inputs).map(|_| input(random, n, wild)).collect(),
        colour: if kind == Kind::Flood { [random.byte(), random.byte(), random.byte()] } else { [0; 3] },
        numbers,
        space: random.pick(&BOTH),
    }
}

const BOTH: [Space; 2] = [Space::Srgb, Space::Linear];

/// Makes the numbers of a matrix or an arithmetic step such that they show: most of them 0, or two that lie at an edge.
/// A saturate's comes to lie where its coefficients are halves, a curve's where its results are.
fn plain_numbers(random: &mut Random, kind: Kind, numbers: &mut [Number]) {
    let fine = random.once_in(2);
    let row = match kind {
        Kind::Matrix => 5,
        Kind::Arithmetic => 4,
        Kind::Curve(transfers) => return curves::plain(random, transfers, numbers),
        Kind::Saturate if fine => return numbers.fill(numbers::saturate_half(random)),
        _ => return,
    };
    for row in numbers.chunks_exact_mut(row) {
        let end = row.len();
        if fine {
            row.fill(Number::Decimal(0));
            row[end - 2..].copy_from_slice(&numbers::fine_pair(random));
        } else {
            row.iter_mut().for_each(|number| {
                if random.once_in(2) {
                    *number = Number::Decimal(0)
                }
            });
        }
    }
}

/// The steps work in sRGB, in linear light, or some in one and some in the other.
pub fn sheet(random: &mut Random, count: usize, width: usize, height: usize, wild: bool) -> Vec<Step> {
    let spaces = random.pick(&[&BOTH[..1], &BOTH[..1], &BOTH[1..], &BOTH]);
    (0..count).map(|n| Step { space: random.pick(spaces), ..step(random, n, width, height, wild) }).collect()
}

/// Steps written in any way.
pub fn style(random: &mut Random) -> Style {
    Style { places: random.below(5), named: random.word() }
}

/// Its new green is 1 with a coefficient of 107 units and 0 with 106: it shows how saturate rounds at 65,036 units.
const FINE: [u8; 4] = [255, 0, 153, 255];

/// A valid picture: "no colour in it exceeds its alpha".
pub fn picture(random: &mut Random, pixels: usize) -> Vec<u8> {
    let style = random.below(4);
    let mut bytes = Vec::with_capacity(4 * pixels);
    for _ in 0..pixels {
        if style == 0 && random.once_in(16) {
            bytes.extend(FINE);
            continue;
        }
        let alpha = match style {
            0 => 255,
            1 => random.byte(),
            2 => {
                if random.once_in(8) {
                    255
                } else {
                    0
                }
            }
            _ => random.pick(&[0, 1, 2, 3, 127, 128, 254, 255]),
        };
        let colour = |random: &mut Random| match random.below(4) {
            0 => 0,
            1 => alpha,
            _ => random.below(usize::from(alpha) + 1) as u8,
        };
        bytes.extend([colour(random), colour(random), colour(random), alpha]);
    }
    bytes
}

/// Lifts a colour of some pixel above its alpha.
pub fn damage_picture(random: &mut Random, bytes: &mut [u8]) {
    if bytes.len() >= 4 {
        let pixel = 4 * random.below(bytes.len() / 4);
        let alpha = random.below(255) as u8;
        bytes[pixel + 3] = alpha;
        bytes[pixel + random.below(3)] = alpha + 1;
    }
}

fn damage_length(random: &mut Random, bytes: &mut Vec<u8>) {
    let length = bytes.len();
    let other =
        random.pick(&[0, length.saturating_sub(1), length.saturating_sub(4), length + 1, length + 4, 2 * length]);
    bytes.resize(other, 0);
}

/// A side of a canvas; a short one where there are many steps, so that a case takes about as long.
fn side(random: &mut Random, steps: usize) -> usize {
    let side = random.pick(&[1, 1, 2, 3, 4, 5, 6, 7, 8, 9, 11, 16]);
    if steps > 16 {
        side.min(3)
    } else {
        side
    }
}

/// How many steps: mostly a few; now and then none, many, as many as there may be or one more.
fn count(random: &mut Random, wild: bool) -> usize {
    match random.below(24) {
        0 => 0,
        1 => random.within(16, MOST_STEPS as i64) as usize,
        2 => random.pick(&[16, 17, MOST_STEPS - 1, MOST_STEPS]),
        3 if wild => MOST_STEPS + 1,
        _ => 1 + random.below(5),
    }
}

/// A call on a small canvas. About two in three are accepted.
pub fn case(random: &mut Random) -> Case {
    let wild = random.once_in(3);
    let count = count(random, wild);
    let (mut width, mut height) = (side(random, count), side(random, count));
    match random.below(40) {
        0 => width = random.pick(&[33, 64, 130]),
        1 => height = random.pick(&[33, 64, 130]),
        _ => {}
    }
    let steps = sheet(random, count, width, height, wild);
    let mut text = print::steps(&steps, style(random)).into_bytes();
    if random.once_in(24) {
        texts::mutate(random, &mut text);
    }
    let size = width * height;
    let mut source = picture(random, size);
    let mut workspace = picture(random, size * count);
    let mut scratch: Vec<u8> = (0..8 * size).map(|_| random.byte()).collect();
    if random.once_in(8) {
        damage_picture(random, &mut source);
    }
    if random.once_in(8) {
        damage_picture(random, &mut workspace);
    }
    if random.once_in(10) {
        for buffer in [&mut source, &mut workspace, &mut scratch] {
            if random.once_in(2) {
                damage_length(random, buffer);
            }
        }
    }
    if random.once_in(40) {
        width = random.pick(&[0, 1024, 1025, usize::MAX, 1 << 32]);
        height = if random.once_in(2) { height } else { random.pick(&[0, 1025, usize::MAX]) };
    }
    let rect = if random.once_in(8) && width < 2000 {
        let far = random.pick(&[9999, usize::MAX, 1 << 63]);
        wild_region(random, width, height.min(2000), far)
    } else {
        region(random, width.min(16), height.min(16))
    };
    Case { width, height, steps: text, rect, source, workspace, scratch }
}
