//! Calls whose lines are worked out by hand: the examples of RULES 11, halves between two units, each refusal, and linear
//! light; last the curves of listed_curves.rs and the convolutions of listed_convolutions.rs. The lines: tests/calls.expected.

use super::calls::Entry;
use super::listed_convolutions::convolutions;
use super::listed_curves::curves;
use super::Case;
use crate::print::in_srgb;
use crate::step::Region;

/// A call with right buffers: a transparent source, 00000009 in every pixel of the workspace, 5 in every byte of the
/// scratch, the whole canvas named, the last layer printed. Lines are written with spaces for tabs, and read with `srgb`.
fn call(name: &str, show: char, width: usize, height: usize, lines: &str) -> Entry {
    as_written(name, show, width, height, &in_srgb(lines))
}

/// The same of lines as they stand.
fn as_written(name: &str, show: char, width: usize, height: usize, lines: &str) -> Entry {
    let (count, pixels) = (lines.lines().count(), width * height);
    let case = Case {
        width,
        height,
        steps: lines.replace(' ', "\t").into_bytes(),
        rect: Region { x: 0, y: 0, width, height },
        source: vec![0; 4 * pixels],
        workspace: [0, 0, 0, 9].repeat(pixels * count),
        scratch: vec![5; 8 * pixels],
    };
    Entry { name: name.to_string(), show, count, layer: count.saturating_sub(1), case }
}

/// A call on a row of alphas, or on a column; a width of 1 makes a column.
pub fn line(name: &str, width: usize, alphas: &[u8], step: &str, rect: [usize; 4]) -> Entry {
    let mut call = call(name, 'a', width, alphas.len() / width, &format!("{step}\n"));
    call.case.source = alphas.iter().flat_map(|alpha| [0, 0, 0, *alpha]).collect();
    call.changed(rect)
}

/// A call on one pixel.
pub fn pixel(name: &str, source: u32, lines: &str, workspace: &[u32]) -> Entry {
    let mut call = call(name, 'x', 1, 1, lines);
    call.case.source = source.to_be_bytes().to_vec();
    call.case.workspace = bytes(workspace);
    call
}

fn bytes(pixels: &[u32]) -> Vec<u8> {
    pixels.iter().flat_map(|pixel| pixel.to_be_bytes()).collect()
}

impl Entry {
    fn changed(mut self, [x, y, width, height]: [usize; 4]) -> Entry {
        self.case.rect = Region { x, y, width, height };
        self
    }

    fn with(mut self, change: impl Fn(&mut Entry)) -> Entry {
        change(&mut self);
        self
    }
}

const OVER: &str = "flood 0 0 1 1 255 0 0 0.5\nover 0 0 1 1 0 src\n";
const MERGE: &str =
    "flood 0 0 1 1 255 0 0 0.5\nflood 0 0 1 1 0 255 0 0.5\nflood 0 0 1 1 0 0 255 0.5\nmerge 0 0 1 1 src 0 1 2\n";

fn pixels() -> Vec<Entry> {
    let example = call("example", 'x', 2, 1, "flood 0 0 1 1 255 0 0 0.5\nover 0 0 2 1 0 src\n").with(|call| {
        call.case.source = bytes(&[0x0000ffff, 0x00000080]);
        call.case.workspace = bytes(&[0x80000080, 0, 0x80007fff, 9]);
    });
    vec![
        pixel("P3", 0x0000ffff, OVER, &[0x80000080, 9]),
        // The flood's rectangle is empty, so its layer stays 00000009: 255 · 246 ÷ 255 of the blue is left.
        pixel("P3 stale", 0x0000ffff, OVER, &[9, 9]),
        example.changed([1, 0, 1, 1]),
        pixel("P4", 0x102030ff, "flood 0 0 1 1 255 9 0 1\nxor 0 0 1 1 0 src\n", &[0xff0900ff, 9]),
        pixel("P5", 0x000000ff, "flood 0 0 1 1 255 255 255 1\narith 0 0 1 1 0 src 0 0.5 0.5 0\n", &[0xffffffff, 9]),
        pixel("P7", 0xff0000ff, "saturate 0 0 1 1 src 0\n", &[9]),
        pixel("P8", 0xffffffff, "lumalpha 0 0 1 1 src\n", &[9]),
        // 800000ff, 408000ff, 204080ff.
        pixel("merge four", 0x000000ff, MERGE, &[0x80000080, 0x00800080, 0x00008080, 9]),
    ]
}

/// Halves between two units, each where one unit more or less shows. A number's goes to the even unit: an alpha of 0 at
/// 128 units and 1 at 129, 1 at 385 and 2 at 386; taken from 255, 255 at 128 and 254 at 129, 254 at 385 and 253 at 386.
/// Saturate's own goes up: G from R is 107, and (107 · 255 + 36 · 153 + 32,768) ÷ 65,536 is 1.
fn halves() -> Vec<Entry> {
    let flood = |name, opacity| pixel(name, 0, &format!("flood 0 0 1 1 255 255 255 {opacity}\n"), &[9]);
    let lessened = |name, k4| pixel(name, 0xff, &format!("arith 0 0 1 1 src src 0 1 0 {k4}\n"), &[9]);
    vec![
        flood("tie 128.5", "x3b008000"),
        flood("tie 385.5", "x3bc0c000"),
        lessened("tie -128.5", "xbb008000"),
        lessened("tie -385.5", "xbbc0c000"),
        pixel("half 106.5", 0xff0099ff, "saturate 0 0 1 1 src x3f7e0c00\n", &[9]),
    ]
}

/// Windows, regions and rectangles.
fn neighbourhoods() -> Vec<Entry> {
    let middle = [0, 0, 255, 0, 0];
    let fourth = [0, 0, 0, 255, 0, 0, 0, 0];
    let shades = [10, 20, 30, 40];
    vec![
        line("P9", 5, &middle, "blur 0 0 5 1 alpha 1.5 0", [2, 0, 1, 1]),
        line("P9 wide", 9, &[0, 0, 0, 0, 255, 0, 0, 0, 0], "blur 0 0 9 1 alpha 1.5 0", [4, 0, 1, 1]),
        line("P9 down", 1, &middle, "blur 0 0 1 5 alpha 0 1.5", [0, 2, 1, 1]),
        line("P9 cut", 5, &middle, "blur 1 0 3 1 src 1.5 0", [2, 0, 1, 1]),
        // 85 85 0, 57 57 28, 38 47 28: nothing stands to the left between passes either.
        line("P9 edge", 3, &[255, 0, 0], "blur 0 0 3 1 src 1.5 0", [0, 0, 1, 1]),
        line("P9 no region", 5, &middle, "blur 2 0 0 1 src 1.5 0", [2, 0, 1, 1]),
        line("P9 no rect", 5, &middle, "blur 0 0 5 1 src 1.5 0", [2, 0, 0, 1]),
        line("P9 corner", 5, &middle, "blur 0 0 5 1 src 1.5 0", [5, 1, 0, 0]),
        line("P9 no layer", 5, &middle, "blur 0 0 5 1 src 1.5 0", [2, 0, 1, 1]).with(|call| call.layer = 1),
        line("P10", 3, &[0, 255, 0], "dilate 0 0 3 1 src 1 0", [1, 0, 1, 1]),
        line("P10 down", 1, &middle, "dilate 0 0 1 5 alpha 0 1", [0, 2, 1, 1]),
        line("P10 cut", 3, &[0, 255, 0], "dilate 1 0 1 1 src 1 0", [1, 0, 1, 1]),
        line("P10 left", 5, &[255, 0, 0, 0, 0], "dilate 0 0 5 1 src 2 0", [0, 0, 1, 1]),
        line("P10 right", 5, &[0, 0, 0, 0, 255], "dilate 0 0 5 1 src 2 0", [4, 0, 1, 1]),
        line("erode edges", 5, &[255; 5], "erode 0 0 5 1 src 2 0", [0, 0, 5, 1]),
        line("erode down", 1, &[255; 5], "erode 0 0 1 5 src 0 2", [0, 0, 1, 5]),
        line("P11 dilate", 8, &fourth, "dilate 0 0 8 1 src 1 0", [3, 0, 1, 1]),
        // Two wide: 128 at 3 and 4; then 64 128 64; three wide: 21 64 85 64 21.
        line("P11 blur", 8, &fourth, "blur 0 0 8 1 src 1 0", [3, 0, 1, 1]),
        line("P11 cut", 8, &fourth, "dilate 4 0 4 1 src 1 0", [3, 0, 1, 1]),
        // Rendered: 128 255 255 128, 64 192 255 192 64, 21 85 170 213 170 85 21. Redrawn, from the nines around:
        // 5 9 132 255 255 132 9 9, 7 71 194 255 194 71 9 5, and x 0 width 7 of the last pass.
        line("P11 both", 8, &fourth, "dilate 0 0 8 1 src 1 0\nblur 0 0 8 1 0 1 0", [3, 0, 1, 1]),
        line("P11 held", 8, &fourth, "blur 0 0 8 1 src 1 0", [3, 0, 1, 1]).with(|call| call.case.workspace.fill(0)),
        line("offset right", 4, &shades, "offset 0 0 4 1 src 1 0", [1, 0, 1, 1]),
        line("offset up", 1, &shades, "offset 0 0 1 4 src 0 -1", [0, 1, 1, 1]),
        line("offset out", 4, &shades, "offset 0 0 4 1 src 1024 0", [1, 0, 1, 1]),
        line("P12 zero", 4, &shades, "blur 0 0 4 1 src x80000000 0", [1, 0, 1, 1]),
        // d is 60: 255 becomes 4, then 0.
        line("sx 32", 1, &[255], "blur 0 0 1 1 src 32 0", [0, 0, 1, 1]),
        // 31.649 · 1.8799712 + 0.5 is 59.9992: d is 59, and the rectangle 87 pixels wider. 1.88 would make it 60.
        call("sx 31.649", '-', 100, 1, "blur 0 0 100 1 src 31.649 0\n").changed([0, 0, 1, 1]),
    ]
}

/// Lines as they stand, on a row of pixels.
pub fn spaced(name: &str, source: &[u32], lines: &str) -> Entry {
    let mut call = as_written(name, 'x', source.len(), 1, lines);
    call.case.source = bytes(source);
    call
}

const TWO_SPACES: &str = "flood 0 0 1 1 255 128 0 0.5 srgb\noffset 0 0 1 1 src 0 0\nmerge 0 0 1 1 1 0";

/// Linear light. 255·f(i/255) of RULES 4.5 is, to linear: 32 → 3.68, 64 → 13.07, 128 → 55.04, 192 → 134.41, 196 → 140.76,
/// 200 → 147.28, and to sRGB: 4 → 33.61, 12 → 61.26, 13 → 63.82, 55 → 127.95, 56 → 129.02, 134 → 191.74; 0 and 255 stay.
fn linear_light() -> Vec<Entry> {
    let held = |name, space| {
        let call = spaced(name, &[0x4080c0ff], &format!("{TWO_SPACES}{space}\n"));
        call.with(|call| call.case.workspace = bytes(&[0x80400080, 9, 9]))
    };
    vec![
        // 80400080; 64 at 128 is 128 straight, 55, and (55·128 + 127) ÷ 255 = 28.
        spaced("linear flood", &[0], "flood 0 0 1 1 255 128 0 0.5\n"),
        // Alpha 26: 200 and 128 are 20 and 13; straight 196 and 128; 141 and 55; 14 and 6. 200 itself would become 147, 15.
        spaced("linear twice", &[0], "flood 0 0 1 1 200 128 0 0.1 linear\n"),
        // 255 and 0 stay, so the bytes are those of the boxes: two wide, two wide, three wide.
        // Red 128 255 128 0, 192 192 64 0, 128 149 85 21; green 0 0 128 255, 0 64 192 128, 21 85 128 107; alpha 149 234 213 128.
        spaced("linear blur", &[0xff0000ff, 0xff0000ff, 0x00ff00ff, 0x00ff00ff], "blur 0 0 4 1 src 1 0\n"),
        // 128 64 32 is 55 13 4, and back 128 64 34. At alpha 64, straight 255 128 64: 64 14 3; straight 255 56 12: 64 32 15.
        spaced("linear back", &[0x804020ff, 0x40201040, 0], "offset 0 0 3 1 src 1 0\noffset 0 0 3 1 0 -1 0 srgb\n"),
        // 0d3786ff under 801c0080: (128·255 + 13·127 + 127) ÷ 255 = 134, (28·255 + 55·127 + 127) ÷ 255 = 55, 67, 255.
        held("linear merge", ""),
        // 4080c0ff under 80400080: (128·255 + 64·127 + 127) ÷ 255 = 160, (64·255 + 128·127 + 127) ÷ 255 = 128, 96, 255.
        held("srgb merge", " srgb"),
    ]
}

/// Two steps on 2 by 2 pixels, the second as given.
pub fn second(name: &str, step: &str) -> Entry {
    let mut call = call(name, '-', 2, 2, &format!("lumalpha 0 0 2 2 src\n{step}\n"));
    call.case.source = bytes(&[0x10, 0x20, 0x30, 0x40]);
    call
}

fn plain(name: &str, change: impl Fn(&mut Entry)) -> Entry {
    second(name, "offset 0 0 2 2 0 1 0").with(change)
}

/// Refusals 1 to 6: canvas, lengths, count, rectangle.
fn sizes() -> Vec<Entry> {
    let most = usize::MAX;
    vec![
        plain("1 width 0", |call| call.case.width = 0),
        plain("1 width 1025", |call| call.case.width = 1025),
        plain("1 height 0", |call| call.case.height = 0),
        plain("1 height max", |call| call.case.height = usize::MAX),
        plain("2 short", |call| call.case.source.truncate(15)),
        plain("2 long", |call| call.case.source.extend([0; 4])),
        call("3 no steps", '-', 2, 2, ""),
        plain("4 short", |call| call.case.workspace.truncate(28)),
        plain("4 long", |call| call.case.workspace.push(0)),
        plain("5 short", |call| call.case.scratch.truncate(31)),
        plain("5 none", |call| call.case.scratch.clear()),
        plain("6 beyond", |_| ()).changed([1, 0, 2, 1]),
        plain("6 below", |_| ()).changed([0, 2, 1, 1]),
        plain("6 empty", |_| ()).changed([3, 0, 0, 0]),
        plain("6 wraps", |_| ()).changed([most, 0, 2, 1]),
    ]
}

/// Refusals 7 to 11 and 13, at step 1 unless the name says 0.
fn steps() -> Vec<Entry> {
    vec![
        second("7 own layer", "over 0 0 2 2 src 1"),
        second("7 far layer", "merge 0 0 2 2 src alpha 0 9999"),
        call("7 at 0", '-', 2, 2, "offset 0 0 2 2 1 1 0\nlumalpha 0 0 2 2 src\n"),
        second("8 nan", "offset 0 0 2 2 src x7fc00000 0"),
        second("8 infinite", "blur 0 0 2 2 src 0 xff800000"),
        call("9 P12 at 0", '-', 2, 2, "blur 0 0 2 2 src -0.0001 0\nlumalpha 0 0 2 2 src\n"),
        second("9 tiny", "dilate 0 0 2 2 src 0 x80000001"),
        second("10 above 32", "blur 0 0 2 2 src x42000001 0"),
        second("10 offset", "offset 0 0 2 2 src 0 -1024.0001"),
        second("10 opacity", "flood 0 0 2 2 1 2 3 1.0001"),
        second("11 offset", "offset 0 0 2 2 src 0.5 0"),
        second("11 radius", "erode 0 0 2 2 src 0 1.5"),
        second("13 region", "lumalpha 1 0 2 2 src"),
        second("13 empty", "lumalpha 0 3 0 0 src"),
    ]
}

/// Refusal 14, the order of checks, and lines that are not of the form.
fn pixels_and_order() -> Vec<Entry> {
    let above = |buffer: &mut Vec<u8>, pixel: usize| buffer[4 * pixel + 1] = buffer[4 * pixel + 3] + 1;
    vec![
        plain("14 source", |call| above(&mut call.case.source, 2)),
        plain("14 layers", |call| above(&mut call.case.workspace, 5)),
        plain("14 both", |call| {
            above(&mut call.case.source, 3);
            above(&mut call.case.workspace, 0);
        }),
        call("13 before 7", '-', 2, 2, "lumalpha 0 0 3 2 src\nover 0 0 2 2 src 1\n"),
        second("7 before 8", "offset 2 2 1 1 1 x7fc00000 0"),
        second("11 before 8", "offset 2 2 1 1 0 0.5 x7fc00000"),
        second("11 before 13", "offset 2 2 1 1 0 0.5 0"),
        second("13 before 14", "lumalpha 1 0 2 2 src").with(|call| above(&mut call.case.source, 0)),
        call("2 before 3", '-', 2, 2, "").with(|call| call.case.source.truncate(15)),
        plain("5 before 6", |call| call.case.scratch.truncate(31)).changed([1, 0, 2, 1]),
        second("6 before 7", "over 0 0 2 2 src 1").changed([0, 0, 3, 0]),
        second("15 line", "merge 0 0 2 2"),
        call("15 too many", '-', 1, 1, &"lumalpha 0 0 1 1 src\n".repeat(65)),
    ]
}

/// Sheets of more than 16 steps: a row moved right and left in turn. Even layers are 10 20 30 0 but for the first, odd ones
/// 0 10 20 30; redrawn, from the nines around, 9 20 9 9 and 9 9 20 9, a pixel a step.
fn long() -> Vec<Entry> {
    let moved = |name: &str, count: usize, layer: usize| {
        let step = |n: usize| match n {
            0 => "offset 0 0 4 1 src 0 0".to_string(),
            _ => format!("offset 0 0 4 1 {} {} 0", n - 1, [-1, 1][n % 2]),
        };
        let steps: Vec<String> = (0..count).map(step).collect();
        let call = line(name, 4, &[10, 20, 30, 40], &steps.join("\n"), [1, 0, 1, 1]);
        call.with(|call| call.layer = layer)
    };
    vec![
        moved("17 steps", 17, 16),
        moved("64 steps", 64, 63),
        moved("64, layer 17", 64, 17),
        moved("64, no layer", 64, 64),
    ]
}

pub fn listed() -> Vec<Entry> {
    let all = [
        pixels(),
        halves(),
        neighbourhoods(),
        sizes(),
        steps(),
        pixels_and_order(),
        long(),
        linear_light(),
        curves(),
        convolutions(),
    ];
    all.into_iter().flatten().collect()
}
