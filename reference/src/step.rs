//! Sheets: kinds of steps, their inputs, numbers, regions and working spaces.

use crate::convolve::Convolution;
use crate::number::{Number, Range};
use crate::pixel::Operator;
use crate::space::Space;
use crate::transfer::{Transfer, Transfers};

/// "Raise the limit from 16 to 64": a sheet has 1 to 64 steps.
pub const MOST_STEPS: usize = 64;

/// "W and H are 1 to 1,024."
pub const LONGEST_SIDE: usize = 1024;

/// "Merge: 1 to 4 inputs."
pub const MOST_INPUTS: usize = 4;

/// "An input is the source; the source's alpha (R, G, B zero); or a layer."
#[derive(Clone, Copy, PartialEq, Eq, Debug)]
pub enum Input {
    Source,
    Alpha,
    Layer(usize),
}

#[derive(Clone, Copy, PartialEq, Eq, Debug)]
pub enum Kind {
    Flood,
    Offset,
    Blur,
    Erode,
    Dilate,
    Matrix,
    Saturate,
    Lumalpha,
    Curve(Transfers),
    Composite(Operator),
    Arithmetic,
    Merge,
    Convolve(Convolution),
}

/// A curve that changes nothing.
const NO_CURVE: Kind = Kind::Curve([Transfer::Identity; 4]);

/// A kernel of one value.
const ONE_VALUE: Kind = Kind::Convolve(Convolution::ONE);

/// The kinds and their words in text. The one curve stands for all, and the one convolution.
pub const KINDS: [(&str, Kind); 17] = [
    ("flood", Kind::Flood),
    ("offset", Kind::Offset),
    ("blur", Kind::Blur),
    ("erode", Kind::Erode),
    ("dilate", Kind::Dilate),
    ("matrix", Kind::Matrix),
    ("saturate", Kind::Saturate),
    ("lumalpha", Kind::Lumalpha),
    ("curve", NO_CURVE),
    ("over", Kind::Composite(Operator::Over)),
    ("in", Kind::Composite(Operator::In)),
    ("out", Kind::Composite(Operator::Out)),
    ("atop", Kind::Composite(Operator::Atop)),
    ("xor", Kind::Composite(Operator::Xor)),
    ("arith", Kind::Arithmetic),
    ("merge", Kind::Merge),
    ("conv", ONE_VALUE),
];

/// "A region x, y, width, height in whole pixels." Also the rectangle that the caller of a redraw names.
#[derive(Clone, Copy, PartialEq, Eq, Debug)]
pub struct Region {
    pub x: usize,
    pub y: usize,
    pub width: usize,
    pub height: usize,
}

/// A step as it is given, before any check. `colour` is a flood's R, G, B.
#[derive(Clone, PartialEq, Eq, Debug)]
pub struct Step {
    pub kind: Kind,
    pub region: Region,
    pub inputs: Vec<Input>,
    pub colour: [u8; 3],
    pub numbers: Vec<Number>,
    pub space: Space,
}

impl Step {
    /// A record that nothing was read into: a merge of nothing on an empty region, in linear light.
    pub const BLANK: Step = Step {
        kind: Kind::Merge,
        region: Region { x: 0, y: 0, width: 0, height: 0 },
        inputs: Vec::new(),
        colour: [0; 3],
        numbers: Vec::new(),
        space: Space::Linear,
    };
}

pub const ZERO_TO_ONE: Range = Range { low: 0, high: 1, whole: false };
const OFFSET: Range = Range { low: -1024, high: 1024, whole: true };
const DEVIATION: Range = Range { low: 0, high: 32, whole: false };
const RADIUS: Range = Range { low: 0, high: 64, whole: true };
pub const COEFFICIENT: Range = Range { low: -256, high: 256, whole: false };

impl Kind {
    /// Its numbers in order (RULES 5.1): what is allowed for them, and how many of such there are.
    fn numbers(self) -> Vec<(Range, usize)> {
        match self {
            Kind::Flood | Kind::Saturate => vec![(ZERO_TO_ONE, 1)],
            Kind::Offset => vec![(OFFSET, 2)],
            Kind::Blur => vec![(DEVIATION, 2)],
            Kind::Erode | Kind::Dilate => vec![(RADIUS, 2)],
            Kind::Matrix => vec![(COEFFICIENT, 20)],
            Kind::Curve(transfers) => transfers.map(Transfer::numbers).to_vec(),
            Kind::Arithmetic => vec![(COEFFICIENT, 4)],
            Kind::Lumalpha | Kind::Composite(_) | Kind::Merge => Vec::new(),
            Kind::Convolve(shape) => vec![(COEFFICIENT, shape.numbers())],
        }
    }

    /// What is allowed for each. A record may claim any count of entries and any orders, so that nobody walks them all.
    pub fn ranges(self) -> impl Iterator<Item = Range> {
        self.numbers().into_iter().flat_map(|(range, count)| std::iter::repeat_n(range, count))
    }

    /// How many inputs a step of the kind has, at least and at most.
    pub fn inputs(self) -> (usize, usize) {
        match self {
            Kind::Flood => (0, 0),
            Kind::Composite(_) | Kind::Arithmetic => (2, 2),
            Kind::Merge => (1, MOST_INPUTS),
            _ => (1, 1),
        }
    }

    pub fn word(self) -> &'static str {
        let kind = match self {
            Kind::Curve(_) => NO_CURVE,
            Kind::Convolve(_) => ONE_VALUE,
            kind => kind,
        };
        KINDS.iter().find(|(_, one)| *one == kind).expect("every kind has a word").0
    }
}

/// A step that has passed its checks: `units` are its numbers, rounded.
#[derive(Clone, Debug)]
pub struct Checked {
    pub kind: Kind,
    pub region: Region,
    pub inputs: Vec<Input>,
    pub colour: [u8; 3],
    pub units: Vec<i64>,
    pub space: Space,
}
