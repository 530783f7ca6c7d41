//! Convolution: lines of the input, extended by the edge mode, that go down the picture with the row that is drawn.
use super::inputs::Inputs;
use super::kernel::{Kernel, Numbers};
use super::matrix::Straight;
use super::rect::Rect;
use super::step::Input;

#[derive(Clone, Copy, PartialEq, Eq, Debug)]
pub enum Edge {
    Duplicate,
    Wrap,
    None,
}

pub struct Convolution {
    pub kernel: Kernel,
    pub edge: Edge,
}

/// What the fields after the input name; an empty divisor is absent.
pub fn convolution(fields: &[&str], units: impl Fn(&str) -> i64) -> Convolution {
    let whole = |field: &str| field.parse::<usize>().expect("a whole number");
    let orders = [whole(fields[0]), whole(fields[1])];
    let (values, rest) = fields[2..].split_at(orders[0] * orders[1]);
    let [divisor, bias, across, down, preserve, edge] = *rest else { panic!("six fields after the values") };
    let numbers = Numbers {
        values: values.iter().map(|value| units(value)).collect(),
        divisor: (!divisor.is_empty()).then(|| units(divisor)),
        bias: units(bias),
    };
    let edge = match edge {
        "duplicate" => Edge::Duplicate,
        "wrap" => Edge::Wrap,
        "none" => Edge::None,
        _ => panic!("no such edge mode: {edge}"),
    };
    Convolution { kernel: Kernel::new(orders, [whole(across), whole(down)], preserve == "true", &numbers), edge }
}

impl Convolution {
    /// How far a change in its input reaches: left, right, up and down; further than any canvas where it reads beyond it.
    pub fn spread(&self) -> [i32; 4] {
        let Kernel { columns, rows, column, row, .. } = self.kernel;
        match self.edge {
            Edge::None => [columns - 1 - column, column, rows - 1 - row, row].map(|n| n as i32),
            Edge::Duplicate | Edge::Wrap => [1024; 4],
        }
    }

    /// The place of a line of n places where this one is read.
    fn place(&self, at: i32, n: usize) -> Option<usize> {
        let n = n as i32;
        match self.edge {
            Edge::Duplicate => Some(at.clamp(0, n - 1) as usize),
            Edge::Wrap => Some(at.rem_euclid(n) as usize),
            Edge::None => (0..n).contains(&at).then_some(at as usize),
        }
    }
}

/// The lines that a row of results is worked from.
pub struct Lines<'a> {
    convolution: &'a Convolution,
    inputs: &'a Inputs<'a>,
    input: Input,
    rect: Rect,
    straight: Option<Straight>,
    lines: Vec<Vec<u8>>,
    room: Vec<u8>,
}

impl<'a> Lines<'a> {
    /// Those of the first row of the rectangle, but for the last of them.
    pub fn new(convolution: &'a Convolution, inputs: &'a Inputs<'a>, input: Input, rect: Rect) -> Lines<'a> {
        let Kernel { columns, rows, row, preserve, .. } = convolution.kernel;
        let lines = vec![vec![0; 4 * (rect.columns().len() + columns - 1)]; rows];
        let straight = preserve.then(Straight::new);
        let mut all = Lines { convolution, inputs, input, rect, straight, lines, room: Vec::new() };
        for i in 1..rows {
            all.load(i, rect.top - row as i32 + i as i32 - 1);
        }
        all
    }

    /// The lines of row y, which is the next one.
    pub fn at(&mut self, y: usize) -> &[Vec<u8>] {
        let Kernel { rows, row, .. } = self.convolution.kernel;
        self.lines.rotate_left(1);
        self.load(rows - 1, y as i32 - row as i32 + rows as i32 - 1);
        &self.lines
    }

    /// Row v of the input, and what the edge mode puts before and behind it.
    fn load(&mut self, i: usize, v: i32) {
        let Lines { convolution, inputs, rect, lines, room, .. } = self;
        let line = &mut lines[i];
        let Some(v) = convolution.place(v, inputs.height) else { return line.fill(0) };
        let (width, first) = (inputs.width, rect.left - convolution.kernel.column as i32);
        let end = first + (line.len() / 4) as i32;
        let (from, to) = (first.max(0), end.min(width as i32));
        // Beyond the canvas the edge mode may read any column.
        let whole = convolution.edge != Edge::None && (from, to) != (first, end);
        let begin = if whole { 0 } else { from };
        let columns = if whole { 0..width } else { from as usize..to as usize };
        let row = inputs.row(self.input, v, columns, room);
        let pixel = |u: i32| 4 * (u - begin) as usize;
        line[4 * (from - first) as usize..4 * (to - first) as usize].copy_from_slice(&row[pixel(from)..pixel(to)]);
        for u in (first..from).chain(to..end) {
            let dst = &mut line[4 * (u - first) as usize..][..4];
            match convolution.place(u, width) {
                Some(u) => dst.copy_from_slice(&row[pixel(u as i32)..][..4]),
                None => dst.fill(0),
            }
        }
        if let Some(straight) = &self.straight {
            line.as_chunks_mut::<4>().0.iter_mut().for_each(|p| *p = straight.of(p).map(|c| c as u8));
        }
    }
}
