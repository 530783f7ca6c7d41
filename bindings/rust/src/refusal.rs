//! Why a call is refused.

use std::fmt::{Display, Formatter};

/// Why a call was refused: the first thing that is wrong, with its place.
#[derive(Clone, Copy, PartialEq, Eq, Debug)]
pub enum Refusal {
    /// 1: the width or the height is 0 or above 1,024.
    Canvas,
    /// 2: the source's length is not 4 · width · height.
    Source,
    /// 3: there is no step. (More than 64 are refused as a line, 15.)
    StepCount,
    /// 4: the workspace's length is not 4 · width · height · steps.
    Workspace,
    /// 5: the scratch buffer's length is not 8 · width · height.
    Scratch,
    /// 6: the rectangle of a redraw is not inside the canvas.
    Rectangle,
    /// 7: an input of this step is not the source, its alpha or an earlier step.
    Input(usize),
    /// 8: a number of this step is not a number, or infinite.
    NotFinite(usize),
    /// 9: a number of this step is below zero, and its range starts at 0.
    Negative(usize),
    /// 10: a number of this step is outside its range otherwise.
    OutOfRange(usize),
    /// 11: a number of this step must be whole and is not.
    NotWhole(usize),
    /// 13: the region of this step leaves the canvas.
    OutsideCanvas(usize),
    /// 14: a colour of this pixel exceeds its alpha, in the source or, in a redraw, in the workspace.
    AboveAlpha(usize),
    /// 15: this line, counted from 1, is not of the form.
    Line(usize),
    /// 17: the target of this step's convolution is not inside its kernel, or its divisor is given and rounds to 0.
    Kernel(usize),
}

impl Refusal {
    /// The refusal's number, 1 to 15 or 17; 12 is retired and never given.
    pub fn number(self) -> u8 {
        match self {
            Refusal::Canvas => 1,
            Refusal::Source => 2,
            Refusal::StepCount => 3,
            Refusal::Workspace => 4,
            Refusal::Scratch => 5,
            Refusal::Rectangle => 6,
            Refusal::Input(_) => 7,
            Refusal::NotFinite(_) => 8,
            Refusal::Negative(_) => 9,
            Refusal::OutOfRange(_) => 10,
            Refusal::NotWhole(_) => 11,
            Refusal::OutsideCanvas(_) => 13,
            Refusal::AboveAlpha(_) => 14,
            Refusal::Line(_) => 15,
            Refusal::Kernel(_) => 17,
        }
    }

    /// The step, pixel or line; 0 where there is none.
    pub fn place(self) -> usize {
        match self {
            Refusal::Input(place)
            | Refusal::NotFinite(place)
            | Refusal::Negative(place)
            | Refusal::OutOfRange(place)
            | Refusal::NotWhole(place)
            | Refusal::OutsideCanvas(place)
            | Refusal::AboveAlpha(place)
            | Refusal::Line(place)
            | Refusal::Kernel(place) => place,
            _ => 0,
        }
    }
}

impl Display for Refusal {
    fn fmt(&self, out: &mut Formatter) -> std::fmt::Result {
        match self {
            Refusal::Canvas => write!(out, "width or height is 0 or above 1,024"),
            Refusal::Source => write!(out, "the source's length does not fit the canvas"),
            Refusal::StepCount => write!(out, "a sheet has 1 to 64 steps"),
            Refusal::Workspace => write!(out, "the workspace's length does not fit the canvas and the steps"),
            Refusal::Scratch => write!(out, "the scratch buffer's length does not fit the canvas"),
            Refusal::Rectangle => write!(out, "the rectangle is not inside the canvas"),
            Refusal::Input(step) => write!(out, "step {step}: an input is not allowed"),
            Refusal::NotFinite(step) => write!(out, "step {step}: a number is not finite"),
            Refusal::Negative(step) => write!(out, "step {step}: a number is below zero"),
            Refusal::OutOfRange(step) => write!(out, "step {step}: a number is outside its range"),
            Refusal::NotWhole(step) => write!(out, "step {step}: a number is not whole"),
            Refusal::OutsideCanvas(step) => write!(out, "step {step}: the region leaves the canvas"),
            Refusal::AboveAlpha(pixel) => write!(out, "pixel {pixel}: a colour exceeds its alpha"),
            Refusal::Line(line) => write!(out, "line {line} is not of the form"),
            Refusal::Kernel(step) => write!(out, "step {step}: the target is outside the kernel, or the divisor is 0"),
        }
    }
}

impl std::error::Error for Refusal {}

/// The refusal of an answer's number and place; nothing where the number is 0.
pub(crate) fn refused(number: u64, place: u64) -> Option<Refusal> {
    let place = place as usize;
    let refusal = match number {
        0 => return None,
        1 => Refusal::Canvas,
        2 => Refusal::Source,
        3 => Refusal::StepCount,
        4 => Refusal::Workspace,
        5 => Refusal::Scratch,
        6 => Refusal::Rectangle,
        7 => Refusal::Input(place),
        8 => Refusal::NotFinite(place),
        9 => Refusal::Negative(place),
        10 => Refusal::OutOfRange(place),
        11 => Refusal::NotWhole(place),
        13 => Refusal::OutsideCanvas(place),
        14 => Refusal::AboveAlpha(place),
        15 => Refusal::Line(place),
        17 => Refusal::Kernel(place),
        _ => unreachable!("the library's numbers are 0 to 11, 13 to 15 and 17"),
    };
    Some(refusal)
}

#[cfg(test)]
mod tests {
    use super::refused;

    #[test]
    fn numbers_and_places_come_back() {
        for number in (1..=17).filter(|number| ![12, 16].contains(number)) {
            let refusal = refused(number, 9).expect("refused");
            assert_eq!(u64::from(refusal.number()), number);
            assert_eq!(refusal.place(), if number <= 6 { 0 } else { 9 });
            assert!(!refusal.to_string().is_empty());
        }
        assert_eq!(refused(0, 0), None);
    }
}
