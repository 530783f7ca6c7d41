//! Rectangles of pixels: columns left up to right, rows top up to bottom, the ends not included.
use std::ops::Range;

#[derive(Clone, Copy, PartialEq, Eq, Debug)]
pub struct Rect {
    pub left: i32,
    pub top: i32,
    pub right: i32,
    pub bottom: i32,
}

impl Rect {
    pub const EMPTY: Rect = Rect { left: 0, top: 0, right: 0, bottom: 0 };

    pub fn new(x: usize, y: usize, width: usize, height: usize) -> Rect {
        let [left, top, right, bottom] = [x, y, x + width, y + height].map(|n| n as i32);
        Rect { left, top, right, bottom }
    }

    pub fn is_empty(self) -> bool {
        self.left >= self.right || self.top >= self.bottom
    }

    pub fn area(self) -> u64 {
        (self.columns().len() * self.rows().len()) as u64
    }

    /// The columns of a rectangle inside a canvas.
    pub fn columns(self) -> Range<usize> {
        self.left as usize..self.right as usize
    }

    pub fn rows(self) -> Range<usize> {
        self.top as usize..self.bottom as usize
    }

    /// What both hold, the same for all that is empty.
    pub fn cut(self, other: Rect) -> Rect {
        let cut = Rect {
            left: self.left.max(other.left),
            top: self.top.max(other.top),
            right: self.right.min(other.right),
            bottom: self.bottom.min(other.bottom),
        };
        if cut.is_empty() {
            Rect::EMPTY
        } else {
            cut
        }
    }

    pub fn join(self, other: Rect) -> Rect {
        Rect {
            left: self.left.min(other.left),
            top: self.top.min(other.top),
            right: self.right.max(other.right),
            bottom: self.bottom.max(other.bottom),
        }
    }

    /// More columns on the left and the right, more rows above and below.
    pub fn grown(self, left: i32, right: i32, above: i32, below: i32) -> Rect {
        Rect { left: self.left - left, top: self.top - above, right: self.right + right, bottom: self.bottom + below }
    }
}
