//! A step as it is drawn: its numbers are whole pixels, units of 1/65,536 or bytes.
use super::convolve::Convolution;
use super::curve::Maps;
use super::rect::Rect;
use super::space::Space;

#[derive(Clone, Copy)]
pub enum Input {
    Source,
    Alpha,
    Layer(usize),
}

#[derive(Clone, Copy)]
pub enum Operator {
    Over,
    In,
    Out,
    Atop,
    Xor,
}

pub enum Work {
    Flood([u8; 4]),
    Offset([i32; 2]),
    /// The size of the boxes, across and down.
    Blur([usize; 2]),
    Erode([usize; 2]),
    Dilate([usize; 2]),
    Matrix([i64; 20]),
    Luminance,
    Curve(Box<Maps>),
    Composite(Operator),
    Arithmetic([i64; 4]),
    Merge,
    Convolve(Box<Convolution>),
}

pub struct Step {
    pub work: Work,
    pub region: Rect,
    pub inputs: Vec<Input>,
    pub space: Space,
}
