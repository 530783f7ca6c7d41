//! The work of each kind of step, from the pictures at its inputs, on the whole canvas. The region cuts afterwards.

use crate::convolve::convolved;
use crate::fault::Fault;
use crate::number::UNIT;
use crate::picture::Picture;
use crate::pixel::{arithmetic, composite, flood, luminance, matrix, merge, saturate, Matrix, Pixel};
use crate::rect::Rect;
use crate::space::{self, Space};
use crate::step::{Checked, Input, Kind};
use crate::transfer::{curve, maps};
use crate::window::{blur, extreme};

/// What stands at every input: the source, its alpha, and the layers, each in its own space.
pub struct Stand {
    pub source: Picture,
    pub alpha: Picture,
    pub layers: Vec<Picture>,
    spaces: Vec<Space>,
}

impl Stand {
    pub fn new(source: Picture, layers: Vec<Picture>, steps: &[Checked], fault: Fault) -> Stand {
        let alpha = if fault.is(Fault::AlphaKeepsColour) { source.clone() } else { source.alpha() };
        Stand { source, alpha, layers, spaces: steps.iter().map(|step| step.space).collect() }
    }

    /// "The source is sRGB. A layer is kept in its step's space."
    fn at(&self, input: Input, fault: Fault) -> (Space, &Picture) {
        let source = fault.choose(Fault::SourceIsLinear, Space::Srgb, Space::Linear);
        match input {
            Input::Source => (source, &self.source),
            Input::Alpha => (source, &self.alpha),
            Input::Layer(n) => (fault.choose(Fault::LayersAreSrgb, self.spaces[n], Space::Srgb), &self.layers[n]),
        }
    }

    /// ".. and converted when a step of the other space reads it."
    fn seen(&self, input: Input, step: &Checked, fault: Fault) -> Picture {
        let (space, picture) = self.at(input, fault);
        let stored = match step.kind {
            Kind::Offset => fault.is(Fault::OffsetUnconverted),
            Kind::Curve(_) => fault.is(Fault::CurveUnconverted),
            Kind::Merge => fault.is(Fault::MergeUnconverted),
            Kind::Convolve(_) => fault.is(Fault::ConvolveUnconverted),
            _ => false,
        };
        space::picture(if stored { step.space } else { space }, step.space, picture, fault)
    }
}

/// "Floods are made as in 01, then converted."
fn flooded(step: &Checked, fault: Fault) -> Pixel {
    let opacity = step.units[0];
    match (step.space, fault) {
        (Space::Srgb, _) | (_, Fault::FloodUnconverted) => flood(step.colour, opacity, fault),
        (_, Fault::FloodBytesConverted) => {
            let colour = step.colour.map(|u| space::straight(step.space, u.into(), fault) as u8);
            flood(colour, opacity, fault)
        }
        _ => space::convert(step.space, flood(step.colour, opacity, fault), fault),
    }
}

/// A step's result before the region cuts it.
pub fn work(step: &Checked, stand: &Stand, fault: Fault) -> Picture {
    let (width, height) = (stand.source.width, stand.source.height);
    let inputs: Vec<Picture> = step.inputs.iter().map(|input| stand.seen(*input, step, fault)).collect();
    let units = &step.units;
    match step.kind {
        Kind::Flood => {
            let colour = flooded(step, fault);
            Picture::of(width, height, |_, _| colour)
        }
        Kind::Offset => {
            // "The result at (x, y) is the input at (x − dx, y − dy)."
            let way = fault.choose(Fault::OffsetBackwards, 1, -1);
            let (dx, dy) = (way * units[0] / UNIT, way * units[1] / UNIT);
            Picture::of(width, height, |x, y| inputs[0].at(x - dx, y - dy))
        }
        Kind::Blur => blur(&inputs[0], units[0], units[1], Rect::of(step.region), fault),
        Kind::Erode | Kind::Dilate => {
            let largest = (step.kind == Kind::Dilate) != fault.is(Fault::ErodeIsDilate);
            extreme(&inputs[0], units[0] / UNIT, units[1] / UNIT, largest, fault)
        }
        Kind::Matrix => {
            let m: Matrix = units[..].try_into().expect("20 numbers");
            Picture::of(width, height, |x, y| matrix(&m, inputs[0].at(x, y), fault))
        }
        Kind::Saturate => {
            let m = saturate(units[0], fault);
            Picture::of(width, height, |x, y| matrix(&m, inputs[0].at(x, y), fault))
        }
        Kind::Lumalpha => {
            let m = luminance(fault);
            Picture::of(width, height, |x, y| matrix(&m, inputs[0].at(x, y), fault))
        }
        Kind::Curve(transfers) => {
            let maps = maps(transfers, units, fault);
            Picture::of(width, height, |x, y| curve(&maps, inputs[0].at(x, y), fault))
        }
        Kind::Composite(operator) => {
            Picture::of(width, height, |x, y| composite(operator, inputs[0].at(x, y), inputs[1].at(x, y), fault))
        }
        Kind::Arithmetic => {
            let k: [i64; 4] = units[..].try_into().expect("4 numbers");
            Picture::of(width, height, |x, y| arithmetic(k, inputs[0].at(x, y), inputs[1].at(x, y), fault))
        }
        Kind::Merge => Picture::of(width, height, |x, y| {
            let pixels: Vec<Pixel> = inputs.iter().map(|input| input.at(x, y)).collect();
            merge(&pixels, fault)
        }),
        Kind::Convolve(shape) => convolved(shape, units, &inputs[0], Rect::of(step.region), fault),
    }
}

/// `new` inside the rectangle, `old` outside.
pub fn patch(rect: Rect, new: &Picture, old: &Picture) -> Picture {
    Picture::of(old.width, old.height, |x, y| if rect.holds(x, y) { new.at(x, y) } else { old.at(x, y) })
}
