//! Convolution (RULES 5.14): each channel summed over the kernel, turned half round, in exact fractions by document 004's
//! formula, with the bias as the request has it.

use crate::fault::Fault;
use crate::number::{Number, UNIT};
use crate::picture::Picture;
use crate::pixel::{byte, limited, premultiply, unpremultiply, Pixel, CLEAR};
use crate::ratio::Ratio;
use crate::rect::Rect;

/// "Orders 1 to 5 each way."
pub const MOST_ORDER: usize = 5;

/// "The edge modes duplicate, wrap and none."
#[derive(Clone, Copy, PartialEq, Eq, Debug)]
pub enum Edge {
    Duplicate,
    Wrap,
    None,
}

/// The edge modes and their words in text.
pub const EDGES: [(&str, Edge); 3] = [("duplicate", Edge::Duplicate), ("wrap", Edge::Wrap), ("none", Edge::None)];

impl Edge {
    pub fn word(self) -> &'static str {
        EDGES.iter().find(|(_, edge)| *edge == self).expect("every edge mode has a word").0
    }
}

/// What a convolution has besides its numbers: orders and target, across and down; whether a divisor is given.
#[derive(Clone, Copy, PartialEq, Eq, Debug)]
pub struct Convolution {
    pub columns: usize,
    pub rows: usize,
    pub divided: bool,
    pub column: usize,
    pub row: usize,
    pub preserve: bool,
    pub edge: Edge,
}

impl Convolution {
    /// A kernel of one value.
    pub const ONE: Convolution =
        Convolution { columns: 1, rows: 1, divided: false, column: 0, row: 0, preserve: false, edge: Edge::None };

    /// How many values the kernel has. A record may claim any orders.
    pub fn values(self) -> usize {
        self.columns.saturating_mul(self.rows)
    }

    /// How many numbers: the values, the divisor where it is given, the bias.
    pub fn numbers(self) -> usize {
        self.values().saturating_add(1 + usize::from(self.divided))
    }
}

/// "An absent divisor is the kernel's sum in units, or 65,536 units, which is 1, if that is 0."
fn absent(values: &[i64], fault: Fault) -> i64 {
    let sum: i64 = match fault {
        Fault::AbsentDivisorOfSizes => values.iter().map(|value| value.abs()).sum(),
        Fault::AbsentDivisorIsOne => UNIT,
        _ => values.iter().sum(),
    };
    match sum {
        0 => fault.choose(Fault::ZeroSumIsUnit, UNIT, 1),
        sum => sum,
    }
}

/// A step of convolution and its numbers, in units.
struct Kernel<'a> {
    shape: Convolution,
    values: &'a [i64],
    divisor: i64,
    bias: i64,
    /// The columns and rows whose ends are the edges: "edges are the canvas's".
    within: Rect,
}

fn kernel(shape: Convolution, units: &[i64], within: Rect, fault: Fault) -> Kernel<'_> {
    let (values, rest) = units.split_at(shape.values());
    let given = if shape.divided { rest[0] } else { 0 };
    // A given divisor of 0 is refused with 17; a seeded fault lets it through.
    let divisor = if given != 0 { given } else { absent(values, fault) };
    Kernel { shape, values, divisor, bias: rest[rest.len() - 1], within }
}

/// Where the place of a line is read that runs from `first` up to `end`; nothing for transparent black.
fn extended(edge: Edge, place: i64, first: i64, end: i64, fault: Fault) -> Option<i64> {
    if first <= place && place < end {
        return Some(place);
    }
    let (length, mut place) = (end - first, place);
    match (edge, fault) {
        (Edge::Duplicate, Fault::DuplicateAsNone) | (Edge::None, _) if !fault.is(Fault::NoneAsDuplicate) => None,
        (Edge::Wrap, Fault::WrapOnce) => {
            place += if place < first { length } else { -length };
            (first <= place && place < end).then_some(place)
        }
        (Edge::Wrap, _) if !fault.is(Fault::WrapAsDuplicate) => {
            while place < first {
                place += length;
            }
            while place >= end {
                place -= length;
            }
            Some(place)
        }
        _ => Some(place.max(first).min(end - 1)),
    }
}

impl Kernel<'_> {
    /// SOURCE at a column and a row, extended by the edge mode.
    fn read(&self, input: &Picture, x: i64, y: i64, fault: Fault) -> Pixel {
        let (edge, within) = (self.shape.edge, self.within);
        let column = extended(edge, x, within.left, within.right, fault);
        let row = extended(edge, y, within.top, within.bottom, fault);
        match (column, row) {
            (Some(x), Some(y)) => input.at(x, y),
            _ => CLEAR,
        }
    }

    /// The kernel's value in a column of a row.
    fn value(&self, column: usize, row: usize, fault: Fault) -> i128 {
        let by_rows = row * self.shape.columns + column;
        let by_columns = column * self.shape.rows + row;
        self.values[fault.choose(Fault::KernelByColumns, by_rows, by_columns)].into()
    }

    /// "SOURCE at X − targetX + J, Y − targetY + I times kernelMatrix at orderX − J − 1, orderY − I − 1", summed over all J
    /// and I, for the channels that `of` gives.
    fn sums(&self, input: &Picture, x: i64, y: i64, of: impl Fn(Pixel) -> [i128; 4], fault: Fault) -> [i128; 4] {
        let Convolution { columns, rows, column, row, .. } = self.shape;
        let (left, above) = match fault {
            Fault::TargetOfTurned => (columns as i64 - 1 - column as i64, rows as i64 - 1 - row as i64),
            Fault::TargetsExchanged => (row as i64, column as i64),
            _ => (column as i64, row as i64),
        };
        let mut sums = [0; 4];
        for i in 0..rows {
            for j in 0..columns {
                let channels = of(self.read(input, x - left + j as i64, y - above + i as i64, fault));
                let value = match fault {
                    Fault::KernelNotTurned => self.value(j, i, fault),
                    Fault::KernelMirrored => self.value(columns - 1 - j, i, fault),
                    _ => self.value(columns - 1 - j, rows - 1 - i, fault),
                };
                for (sum, channel) in sums.iter_mut().zip(channels) {
                    *sum += value * channel;
                }
            }
        }
        sums
    }

    /// Sum / divisor, exactly.
    fn divided(&self, sum: i128, fault: Fault) -> Ratio {
        let divisor = i128::from(self.divisor);
        let sign = fault.choose(Fault::DivisorSignLost, divisor.signum(), 1);
        Ratio::new(sign * sum, divisor.abs())
    }

    /// The bias, "multiplied by the input's alpha at the result's own place".
    fn biased(&self, alpha: u8) -> Ratio {
        Ratio::new(self.bias.into(), UNIT.into()) * Ratio::whole(alpha.into())
    }

    /// A channel: "worked exactly, rounded once, halves up, limited to 0..255".
    fn channel(&self, sum: i128, alpha: u8, fault: Fault) -> i128 {
        let (divided, bias) = (self.divided(sum, fault), self.biased(alpha));
        let exact = match fault {
            Fault::RoundedBeforeBias => Ratio::whole((divided + Ratio::new(1, 2)).down()) + bias,
            Fault::BiasDivided => self.divided(sum + i128::from(self.bias) * i128::from(alpha), fault),
            _ => divided + bias,
        };
        let up = (exact + Ratio::new(1, 2)).down();
        let halfway = exact + Ratio::new(1, 2) == Ratio::whole(up);
        let nearest = match fault {
            Fault::ConvolvedDown => exact.down(),
            Fault::ConvolvedHalvesDown if halfway => up - 1,
            Fault::ConvolvedHalvesEven if halfway => up - up.rem_euclid(2),
            Fault::NegativeDivisorDown if self.divisor < 0 => exact.down(),
            _ => up,
        };
        fault.choose(Fault::ConvolvedWraps, limited(nearest), nearest.rem_euclid(256))
    }

    /// "Then colours are lowered to alpha."
    fn free(&self, input: &Picture, x: i64, y: i64, fault: Fault) -> Pixel {
        let own = input.at(x, y)[3];
        let sums = self.sums(input, x, y, |p| p.map(i128::from), fault);
        let alpha = match fault {
            Fault::AlphaWithoutBias => self.channel(sums[3], 0, fault),
            Fault::AlphaBiasWhole | Fault::BiasWhole => self.channel(sums[3], 255, fault),
            _ => self.channel(sums[3], own, fault),
        };
        let by = match fault {
            Fault::BiasWhole => 255,
            Fault::BiasByNewAlpha => byte(alpha),
            _ => own,
        };
        let [r, g, b] = [0, 1, 2].map(|i| {
            let colour = self.channel(sums[i], by, fault);
            byte(fault.choose(Fault::ConvolvedNotLowered, colour.min(alpha), colour))
        });
        [r, g, b, byte(alpha)]
    }

    /// "With preserve-alpha the colours are unpremultiplied first, alpha is kept, and they are premultiplied by it."
    fn preserved(&self, input: &Picture, x: i64, y: i64, fault: Fault) -> Pixel {
        let own = input.at(x, y)[3];
        let straight = |p: Pixel| {
            p.map(|c| match fault {
                Fault::PreservedPremultiplied => c.into(),
                _ => unpremultiply(c.into(), p[3].into(), fault),
            })
        };
        let sums = self.sums(input, x, y, straight, fault);
        let by = match fault {
            Fault::PreservedBiasWhole | Fault::BiasWhole => 255,
            Fault::PreservedWithoutBias => 0,
            _ => own,
        };
        let [r, g, b] = [0, 1, 2].map(|i| {
            let colour = self.channel(sums[i], by, fault);
            byte(fault.choose(Fault::PreservedStraight, premultiply(colour, own.into(), fault), colour))
        });
        [r, g, b, own]
    }
}

/// A step's result on the whole canvas. `region` is for a fault only.
pub fn convolved(shape: Convolution, units: &[i64], input: &Picture, region: Rect, fault: Fault) -> Picture {
    let canvas = Rect { left: 0, top: 0, right: input.width as i64, bottom: input.height as i64 };
    let at_region = fault.is(Fault::EdgeAtRegion) && !region.is_empty();
    let kernel = kernel(shape, units, if at_region { region } else { canvas }, fault);
    let preserve = shape.preserve && !fault.is(Fault::AlphaNotPreserved);
    Picture::of(input.width, input.height, |x, y| match preserve {
        true => kernel.preserved(input, x, y, fault),
        false => kernel.free(input, x, y, fault),
    })
}

/// More columns on the left and the right, more rows above and below: "with none it grows by order − 1 − target left or up
/// and by target right or down". Nothing where it is "the whole canvas".
pub fn spread(shape: Convolution, fault: Fault) -> Option<[i64; 4]> {
    let [columns, rows, column, row] = [shape.columns, shape.rows, shape.column, shape.row].map(|n| n as i64);
    let whole = match shape.edge {
        Edge::Duplicate => !fault.is(Fault::DuplicateRectGrows),
        Edge::Wrap => !fault.is(Fault::WrapRectGrows),
        Edge::None => fault.is(Fault::NoneRectWhole),
    };
    let [left, right, above, below] = [columns - 1 - column, column, rows - 1 - row, row];
    let grown = match fault {
        Fault::KernelRectMirrored => [right, left, below, above],
        Fault::KernelRectMore => [left + 1, right + 1, above + 1, below + 1],
        Fault::KernelRectLessLeft => [(left - 1).max(0), right, above, below],
        Fault::KernelRectLessRight => [left, (right - 1).max(0), above, below],
        Fault::KernelRectLessUp => [left, right, (above - 1).max(0), below],
        Fault::KernelRectLessDown => [left, right, above, (below - 1).max(0)],
        _ => [left, right, above, below],
    };
    (!whole).then_some(grown)
}

/// For a fault: the absent divisor from decimals as they are given, rounded to units once.
pub fn exact_sum(numbers: &[Number]) -> Option<i64> {
    let decimal = |number: &Number| match number {
        Number::Decimal(tenthousandths) => Some(i128::from(*tenthousandths)),
        Number::Single(_) => None,
    };
    let sum: i128 = numbers.iter().map(decimal).sum::<Option<i128>>()?;
    let units = Ratio::new(sum * i128::from(UNIT), 10_000) + Ratio::new(1, 2);
    Some(units.down() as i64)
}
