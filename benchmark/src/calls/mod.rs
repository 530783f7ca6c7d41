//! Whole calls: a sheet drawn on a picture, by the proved library or by the plain version.
#[cfg(feature = "library")]
pub mod library;
pub mod partial;
pub mod same;
pub mod sheets;
#[cfg(test)]
mod tests;
pub mod whole;

/// A part of the canvas in whole pixels.
#[derive(Clone, Copy, Debug)]
pub struct Region {
    pub x: usize,
    pub y: usize,
    pub width: usize,
    pub height: usize,
}

/// What a call is given. Steps are lines of text.
pub struct Call<'a> {
    pub width: usize,
    pub height: usize,
    pub steps: &'a [u8],
    pub source: &'a [u8],
    pub workspace: &'a mut [u8],
    pub scratch: &'a mut [u8],
}

/// The count is a redraw's.
#[derive(Clone, Copy, PartialEq, Eq, Debug, Default)]
pub struct Answer {
    pub number: u64,
    pub place: u64,
    pub count: u64,
}

pub trait Renderer {
    fn render(&self, call: Call) -> Answer;
    fn redraw(&self, call: Call, changed: Region) -> Answer;
}

/// The buffers that a sheet is drawn into, and what it is drawn on.
#[derive(Clone)]
pub struct Desk<'a> {
    pub side: usize,
    pub steps: &'a str,
    pub source: &'a [u8],
    pub workspace: Vec<u8>,
    pub scratch: Vec<u8>,
}

impl<'a> Desk<'a> {
    pub fn new(side: usize, steps: &'a str, source: &'a [u8]) -> Desk<'a> {
        let size = 4 * side * side;
        Desk { side, steps, source, workspace: vec![1; size * steps.lines().count()], scratch: vec![1; 2 * size] }
    }

    fn call(&mut self) -> Call<'_> {
        let Desk { side, steps, source, workspace, scratch } = self;
        Call { width: *side, height: *side, steps: steps.as_bytes(), source, workspace, scratch }
    }

    pub fn render(&mut self, renderer: &dyn Renderer) -> Answer {
        renderer.render(self.call())
    }

    pub fn redraw(&mut self, renderer: &dyn Renderer, changed: Region) -> Answer {
        renderer.redraw(self.call(), changed)
    }
}
