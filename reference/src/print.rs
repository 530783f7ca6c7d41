//! What is printed: the answer of `sheet`, and steps as lines of text.

use crate::check::Answer;
use crate::convolve::Convolution;
use crate::fault::Fault;
use crate::number::Number;
use crate::picture::Picture;
use crate::render::{render, Sheet};
use crate::space::{self, Space};
use crate::step::{Input, Kind, Step};
use crate::text::{read, Limits, Reading, LIMITS};
use crate::transfer::Transfer;

/// "It prints `ok` and the last layer as `row` lines, or one line: `refused`, number, place, parted by tabs."
pub fn sheet(text: &[u8], fault: Fault) -> Vec<u8> {
    sheet_within(text, LIMITS, fault)
}

/// The same by a reader of other limits.
pub fn sheet_within(text: &[u8], limits: Limits, fault: Fault) -> Vec<u8> {
    match drawn(text, limits, fault) {
        Ok((width, layer)) => format!("ok\n{}", rows(width, &layer)).into_bytes(),
        Err(answer) => format!("refused\t{}\t{}\n", answer.number, answer.place).into_bytes(),
    }
}

/// The canvas's width and the last layer of a text: "`sheet` prints the last layer in sRGB".
fn drawn(text: &[u8], limits: Limits, fault: Fault) -> Result<(usize, Vec<u8>), Answer> {
    let mut list = vec![Step::BLANK; limits.steps];
    let Reading { width, height, count, source } = read(text, &mut list, limits, fault)?;
    let size = 4 * width * height;
    let mut workspace = vec![0; size * count];
    let mut scratch = vec![0; 2 * size];
    let sheet = Sheet { width, height, steps: &list, count };
    match render(sheet, &source, &mut workspace, &mut scratch, fault) {
        Answer::DONE => {
            let last = Picture::from_bytes(width, height, &workspace[size * (count - 1)..]);
            let space = fault.choose(Fault::LastLayerRaw, list[count - 1].space, Space::Srgb);
            Ok((width, space::picture(space, Space::Srgb, &last, fault).bytes()))
        }
        answer => Err(answer),
    }
}

/// A picture as `row` lines, "row fields being pixels left to right".
pub fn rows(width: usize, picture: &[u8]) -> String {
    let pixel = |p: &[u8]| format!("\t{:02x}{:02x}{:02x}{:02x}", p[0], p[1], p[2], p[3]);
    let row = |row: &[u8]| format!("row{}\n", row.chunks_exact(4).map(pixel).collect::<String>());
    picture.chunks_exact(4 * width).map(row).collect()
}

/// A number as a field, a decimal with at least `places` digits after the point, 0 to 4.
pub fn number(number: Number, places: usize) -> String {
    match number {
        Number::Single(bits) => format!("x{bits:08x}"),
        Number::Decimal(n) => {
            let minus = if n < 0 { "-" } else { "" };
            let (ones, parts) = (n.unsigned_abs() / 10_000, format!("{:04}", n.unsigned_abs() % 10_000));
            let kept = parts.trim_end_matches('0').len().max(places);
            let point = if kept > 0 { "." } else { "" };
            format!("{minus}{ones}{point}{}", &parts[..kept])
        }
    }
}

/// How steps are written: decimals with at least so many digits after the point, 0 to 4; bit n (mod 64) of `named` says
/// whether step n has the field `linear`, which may be left out.
#[derive(Clone, Copy, Default)]
pub struct Style {
    pub places: usize,
    pub named: u64,
}

/// A step's numbers as fields; those of a curve with its words and counts, those of a convolution with orders and choices.
fn numbers(step: &Step, style: Style) -> Vec<String> {
    let mut written = step.numbers.iter().map(|n| number(*n, style.places));
    let transfers = match step.kind {
        Kind::Curve(transfers) => transfers,
        Kind::Convolve(shape) => return convolution(shape, written.collect()),
        _ => return written.collect(),
    };
    let channel = |transfer: Transfer| {
        let head = [transfer.word().to_string()].into_iter().chain(transfer.entries().map(|count| count.to_string()));
        head.chain(written.by_ref().take(transfer.numbers().1)).collect::<Vec<String>>()
    };
    transfers.into_iter().flat_map(channel).collect()
}

/// The fields of a convolution after its input.
fn convolution(shape: Convolution, mut numbers: Vec<String>) -> Vec<String> {
    let Convolution { columns, rows, divided, column, row, preserve, edge } = shape;
    if !divided {
        numbers.insert(columns * rows, String::new());
    }
    let orders = [columns, rows].map(|n| n.to_string());
    let choices = [column.to_string(), row.to_string(), preserve.to_string(), edge.word().to_string()];
    [&orders[..], &numbers, &choices].concat()
}

/// Step n as a line, its line feed included.
pub fn step(step: &Step, n: usize, style: Style) -> String {
    let region = step.region;
    let mut fields = vec![step.kind.word().to_string()];
    fields.extend([region.x, region.y, region.width, region.height].map(|n| n.to_string()));
    fields.extend(step.inputs.iter().map(|input| match input {
        Input::Source => "src".to_string(),
        Input::Alpha => "alpha".to_string(),
        Input::Layer(n) => n.to_string(),
    }));
    if step.kind == Kind::Flood {
        fields.extend(step.colour.map(|byte| byte.to_string()));
    }
    fields.extend(numbers(step, style));
    if step.space == Space::Srgb || style.named >> (n % 64) & 1 == 1 {
        fields.push(step.space.word().to_string());
    }
    fields.join("\t") + "\n"
}

/// Steps as lines.
pub fn steps(all: &[Step], style: Style) -> String {
    all.iter().enumerate().map(|(n, one)| step(one, n, style)).collect()
}

/// Lines that name no space, each with `srgb`. Their fields are parted by tabs or by spaces, as in the lines given.
pub fn in_srgb(lines: &str) -> String {
    let tab = if lines.contains('\t') { '\t' } else { ' ' };
    lines.lines().map(|line| format!("{line}{tab}srgb\n")).collect()
}
