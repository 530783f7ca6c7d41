//! Rectangles of pixels: columns left up to right, rows top up to bottom, the ends not included.

use crate::step::Region;

#[derive(Clone, Copy, PartialEq, Eq, Debug)]
pub struct Rect {
    pub left: i64,
    pub top: i64,
    pub right: i64,
    pub bottom: i64,
}

impl Rect {
    pub const EMPTY: Rect = Rect { left: 0, top: 0, right: 0, bottom: 0 };

    /// The region's own pixels; it is inside a canvas.
    pub fn of(region: Region) -> Rect {
        let [x, y, width, height] = [region.x, region.y, region.width, region.height].map(|n| n as i64);
        Rect { left: x, top: y, right: x + width, bottom: y + height }
    }

    pub fn is_empty(self) -> bool {
        self.left >= self.right || self.top >= self.bottom
    }

    pub fn holds(self, x: i64, y: i64) -> bool {
        self.left <= x && x < self.right && self.top <= y && y < self.bottom
    }

    /// "Width times height."
    pub fn area(self) -> u64 {
        if self.is_empty() {
            0
        } else {
            ((self.right - self.left) * (self.bottom - self.top)) as u64
        }
    }

    pub fn cut(self, other: Rect) -> Rect {
        Rect {
            left: self.left.max(other.left),
            top: self.top.max(other.top),
            right: self.right.min(other.right),
            bottom: self.bottom.min(other.bottom),
        }
    }

    /// "The smallest rectangle holding" both.
    pub fn join(self, other: Rect) -> Rect {
        Rect {
            left: self.left.min(other.left),
            top: self.top.min(other.top),
            right: self.right.max(other.right),
            bottom: self.bottom.max(other.bottom),
        }
    }

    /// More columns on the left and the right, more rows above and below.
    pub fn grown(self, left: i64, right: i64, above: i64, below: i64) -> Rect {
        Rect { left: self.left - left, top: self.top - above, right: self.right + right, bottom: self.bottom + below }
    }
}
