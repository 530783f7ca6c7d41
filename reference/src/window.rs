//! Neighbourhoods (RULES 5.4 to 5.6): box passes, and least or largest over a window, each straight from its window.

use crate::fault::Fault;
use crate::picture::Picture;
use crate::rect::Rect;

/// "d is s (its units / 65,536) times 1.8799712 plus 1/2, rounded down."
pub fn box_size(units: i64, fault: Fault) -> i64 {
    let factor = fault.choose(Fault::ShortFactor, 18_799_712, 18_800_000_i128);
    let half = fault.choose(Fault::BoxSizeDown, 5_000_000, 0);
    (i128::from(units) * factor + half * 65_536).div_euclid(10_000_000 * 65_536) as i64
}

/// The first and last offset of each box. "d of 0 or 1: no passes. d odd: three boxes from x − (d−1)/2 to x + (d−1)/2.
/// d even: a box from x − d/2 to x + d/2 − 1, then x − d/2 + 1 to x + d/2, then x − d/2 to x + d/2."
pub fn boxes(d: i64, fault: Fault) -> Vec<(i64, i64)> {
    let half = d / 2;
    if d <= 1 {
        return Vec::new();
    }
    if d % 2 == 1 {
        return vec![(-half, half); 3];
    }
    let (left, right, both) = ((-half, half - 1), (1 - half, half), (-half, half));
    match fault {
        Fault::EvenBoxesSwapped => vec![right, left, both],
        Fault::WideBoxFirst => vec![both, left, right],
        Fault::WideBoxNarrow => vec![left, right, left],
        _ => vec![left, right, both],
    }
}

/// Channels between passes; "reads outside the canvas give transparent black, also between passes".
struct Channels {
    width: i64,
    height: i64,
    values: Vec<[i64; 4]>,
}

impl Channels {
    fn of(picture: &Picture) -> Channels {
        let (width, height) = (picture.width as i64, picture.height as i64);
        let at = |x, y| picture.at(x, y).map(i64::from);
        let values = (0..height).flat_map(|y| (0..width).map(move |x| at(x, y))).collect();
        Channels { width, height, values }
    }

    fn at(&self, x: i64, y: i64) -> [i64; 4] {
        if x < 0 || y < 0 || x >= self.width || y >= self.height {
            return [0; 4];
        }
        self.values[(y * self.width + x) as usize]
    }

    /// Every pixel from its window, `first` to `last` pixels away, across or down: the window's channels put
    /// together by `both`.
    fn pass(&self, down: bool, (first, last): (i64, i64), both: impl Fn(i64, i64) -> i64) -> Channels {
        let mut values = Vec::with_capacity(self.values.len());
        for y in 0..self.height {
            for x in 0..self.width {
                let read = |k: i64| if down { self.at(x, y + k) } else { self.at(x + k, y) };
                let mut all = read(first);
                for k in first + 1..=last {
                    let next = read(k);
                    for (channel, other) in all.iter_mut().zip(next) {
                        *channel = both(*channel, other);
                    }
                }
                values.push(all);
            }
        }
        Channels { values, ..*self }
    }

    fn cut(&mut self, rect: Rect) {
        for y in 0..self.height {
            for x in 0..self.width {
                if !rect.holds(x, y) {
                    self.values[(y * self.width + x) as usize] = [0; 4];
                }
            }
        }
    }

    fn picture(&self, scale: i64) -> Picture {
        let byte = |value: i64| ((value + scale / 2) / scale).clamp(0, 255) as u8;
        Picture::of(self.width as usize, self.height as usize, |x, y| self.at(x, y).map(byte))
    }
}

/// "Each box stores (sum + (size ÷ 2)) ÷ size. Horizontal passes come first." `region` is for a fault only.
pub fn blur(input: &Picture, sx: i64, sy: i64, region: Rect, fault: Fault) -> Picture {
    let scale = fault.choose(Fault::FractionsKept, 1, 65_536);
    let mut channels = Channels::of(input);
    channels.values.iter_mut().for_each(|p| *p = p.map(|c| c * scale));
    let across = boxes(box_size(sx, fault), fault).into_iter().map(|b| (false, b));
    let down = boxes(box_size(sy, fault), fault).into_iter().map(|b| (true, b));
    let passes: Vec<_> =
        if fault.is(Fault::VerticalFirst) { down.chain(across).collect() } else { across.chain(down).collect() };
    for (down, (first, last)) in passes {
        let size = last - first + 1;
        let half = fault.choose(Fault::BoxDown, size / 2, 0);
        channels = channels.pass(down, (first, last), |a, b| a + b);
        channels.values.iter_mut().for_each(|sum| *sum = sum.map(|c| (c + half) / size));
        if fault.is(Fault::CutBetweenPasses) {
            channels.cut(region);
        }
    }
    channels.picture(scale)
}

/// "A window from x − r to x + r, 2r + 1 wide": one pixel wide for a radius of 0.
pub fn span(radius: i64, fault: Fault) -> (i64, i64) {
    match (radius, fault) {
        (0, _) => (0, 0),
        (r, Fault::WindowShortLeft) => (1 - r, r),
        (r, Fault::WindowShortRight) => (-r, r - 1),
        (r, _) => (-r, r),
    }
}

/// "The smallest or largest of each channel over the window."
pub fn extreme(input: &Picture, rx: i64, ry: i64, largest: bool, fault: Fault) -> Picture {
    let pick = |a: i64, b: i64| if largest { a.max(b) } else { a.min(b) };
    let across = Channels::of(input).pass(false, span(rx, fault), pick);
    across.pass(true, span(ry, fault), pick).picture(1)
}
