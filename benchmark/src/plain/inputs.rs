//! Rows of what stands at a step's inputs, in the step's space.
use super::space::{Conversion, Space};
use super::step::{Input, Step};
use std::ops::Range;

pub struct Inputs<'a> {
    pub width: usize,
    pub height: usize,
    pub source: &'a [u8],
    /// The layers before the step's own.
    pub layers: &'a [u8],
    /// All steps: layer n is in the space of step n.
    pub steps: &'a [Step],
    pub space: Space,
    /// Into that space, where an input is in the other one.
    pub conversion: Option<Conversion>,
}

/// Whether a step in the space reads an input converted. The source's alpha is the same in both.
pub fn is_converted(input: Input, steps: &[Step], space: Space) -> bool {
    match input {
        Input::Source => space != Space::Srgb,
        Input::Alpha => false,
        Input::Layer(n) => space != steps[n].space,
    }
}

impl Inputs<'_> {
    /// Some columns of a row of the source or of a layer.
    fn part(&self, input: Input, y: usize, columns: Range<usize>) -> &[u8] {
        let picture = match input {
            Input::Source | Input::Alpha => self.source,
            Input::Layer(n) => &self.layers[4 * self.width * self.height * n..],
        };
        &picture[4 * (y * self.width + columns.start)..][..4 * columns.len()]
    }

    /// Into the step's space, where the input is in the other one.
    pub fn conversion_of(&self, input: Input) -> Option<&Conversion> {
        self.conversion.as_ref().filter(|_| is_converted(input, self.steps, self.space))
    }

    /// Some columns of a row. They are read where they lie, but for the source's alpha and for what is converted, which are
    /// made in `room`.
    pub fn row<'b>(&'b self, input: Input, y: usize, columns: Range<usize>, room: &'b mut Vec<u8>) -> &'b [u8] {
        let Some(conversion) = self.conversion_of(input) else { return self.kept(input, y, columns, room) };
        let row = self.part(input, y, columns);
        room.resize(row.len(), 0);
        conversion.row(row, room);
        room
    }

    /// The same as the input is kept, unconverted.
    pub fn kept<'b>(&'b self, input: Input, y: usize, columns: Range<usize>, room: &'b mut Vec<u8>) -> &'b [u8] {
        let row = self.part(input, y, columns);
        if !matches!(input, Input::Alpha) {
            return row;
        }
        room.resize(row.len(), 0);
        for (dst, src) in room.as_chunks_mut().0.iter_mut().zip(row.as_chunks().0) {
            *dst = (u32::from_le_bytes(*src) & 0xff00_0000).to_le_bytes();
        }
        room
    }
}
