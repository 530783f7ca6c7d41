//! Convolution: whole numbers and fractions, document 002's example, the turn, targets, edges, divisors, bias, alpha, spaces.

mod common;

use common::*;
use reference::cases::picture;
use reference::convolve::{convolved, Convolution, Edge};
use reference::fault::Fault;
use reference::picture::Picture;
use reference::random::Random;
use reference::rect::Rect;

const UNIT: i64 = 65_536;
const EDGES: [Edge; 3] = [Edge::Duplicate, Edge::Wrap, Edge::None];

/// The alphas of the layer that a convolution draws on a picture of alphas.
fn on(width: usize, alphas: &[u8], kernel: &str) -> Vec<u8> {
    let (height, source) = (alphas.len() / width, common::alphas(alphas));
    let line = format!("conv 0 0 {width} {height} src {kernel}\n");
    last_layer(width, height, &line, &source).chunks_exact(4).map(|p| p[3]).collect()
}

/// The place of a line of n places where a place outside is read.
fn place(edge: Edge, at: i64, n: i64) -> Option<i64> {
    match edge {
        Edge::Duplicate => Some(at.clamp(0, n - 1)),
        Edge::Wrap => Some(at.rem_euclid(n)),
        Edge::None => (0..n).contains(&at).then_some(at),
    }
}

/// A byte by the whole-number form of RULES 5.14: the divisor's sign in the sum, the half and the bias in one number for
/// each alpha, one division.
fn in_whole_numbers(sum: i64, alpha: u8, divisor: i64, bias: i64) -> i64 {
    let more = (i128::from(divisor.abs()) * i128::from(bias * i64::from(alpha) + 32_768)).div_euclid(65_536) as i64;
    (sum * divisor.signum() + more).div_euclid(divisor.abs()).clamp(0, 255)
}

/// A pixel by sums over the kernel's own places: value (p, q) goes with the neighbour order − 1 − p − target to the right and
/// so below.
fn pixel(shape: Convolution, units: &[i64], input: &Picture, x: i64, y: i64) -> [u8; 4] {
    let (columns, rows) = (shape.columns as i64, shape.rows as i64);
    let (values, rest) = units.split_at(shape.values());
    let all: i64 = values.iter().sum();
    let divisor = match (shape.divided, all) {
        (true, _) => rest[0],
        (false, 0) => UNIT,
        (false, all) => all,
    };
    let own = input.at(x, y)[3];
    let straight = |c: u8, a: u8| (255 * i64::from(c) + i64::from(a) / 2).checked_div(i64::from(a)).unwrap_or(0);
    let channel = |i: usize| {
        let mut sum = 0;
        for q in 0..rows {
            for p in 0..columns {
                let u = place(shape.edge, x + columns - 1 - p - shape.column as i64, input.width as i64);
                let v = place(shape.edge, y + rows - 1 - q - shape.row as i64, input.height as i64);
                let (Some(u), Some(v)) = (u, v) else { continue };
                let at = input.at(u, v);
                let c = if shape.preserve { straight(at[i], at[3]) } else { at[i].into() };
                sum += values[(q * columns + p) as usize] * c;
            }
        }
        in_whole_numbers(sum, own, divisor, *rest.last().expect("a bias"))
    };
    let alpha = if shape.preserve { i64::from(own) } else { channel(3) };
    let [r, g, b] = [0, 1, 2].map(|i| match shape.preserve {
        true => (channel(i) * alpha + 127) / 255,
        false => channel(i).min(alpha),
    });
    [r, g, b, alpha].map(|c| c as u8)
}

fn units(random: &mut Random) -> i64 {
    let most = 256 * UNIT;
    let (any, near) = (random.within(-most, most), random.within(-2 * UNIT, 4 * UNIT));
    let (whole, quarter) = (UNIT * random.within(-3, 6), UNIT / 4 * random.within(-8, 8));
    random.pick(&[0, 1, -1, most, -most, any, near, whole, whole, whole, quarter])
}

/// Numbers of a kernel; its divisor is not 0.
fn numbers(random: &mut Random, shape: Convolution) -> Vec<i64> {
    let mut all: Vec<i64> = (0..shape.numbers()).map(|_| units(random)).collect();
    let end = all.len() - 1;
    if random.once_in(2) {
        all[end] = random.pick(&[0, UNIT / 2, -UNIT / 2, UNIT / 3]);
    }
    if shape.divided {
        let some = random.within(1, 9 * UNIT);
        all[end - 1] = random.pick(&[UNIT, -UNIT, 2 * UNIT, -2 * UNIT, 9 * UNIT, some, -some, 1, -1]);
    }
    all
}

/// Every order, every target, every edge mode, both ways with alpha, on canvases of 1 by 1 to 6 by 6.
#[test]
fn every_order_and_target() {
    let mut random = Random::new(31);
    let mut shapes = 0;
    for (columns, rows) in (1..=5).flat_map(|c| (1..=5).map(move |r| (c, r))) {
        for (column, row) in (0..columns).flat_map(|c| (0..rows).map(move |r| (c, r))) {
            for (edge, preserve) in EDGES.into_iter().flat_map(|edge| [(edge, false), (edge, true)]) {
                let divided = random.once_in(2);
                let shape = Convolution { columns, rows, divided, column, row, preserve, edge };
                let (width, height) = (1 + random.below(6), 1 + random.below(6));
                let input = Picture::from_bytes(width, height, &picture(&mut random, width * height));
                let units = numbers(&mut random, shape);
                let drawn = convolved(shape, &units, &input, Rect::EMPTY, Fault::None);
                let right = Picture::of(width, height, |x, y| pixel(shape, &units, &input, x, y));
                assert_eq!(drawn, right, "{shape:?} {units:?} {input:?}");
                shapes += 1;
            }
        }
    }
    assert_eq!(shapes, 15 * 15 * 6);
}

/// Every canvas of 1 by 1 to 6 by 6 with every edge mode.
#[test]
fn every_small_canvas() {
    let mut random = Random::new(32);
    for (width, height) in (1..=6).flat_map(|w| (1..=6).map(move |h| (w, h))) {
        for edge in EDGES {
            for _ in 0..8 {
                let (columns, rows) = (1 + random.below(5), 1 + random.below(5));
                let (column, row) = (random.below(columns), random.below(rows));
                let (divided, preserve) = (random.once_in(2), random.once_in(3));
                let shape = Convolution { columns, rows, divided, column, row, preserve, edge };
                let input = Picture::from_bytes(width, height, &picture(&mut random, width * height));
                let units = numbers(&mut random, shape);
                let drawn = convolved(shape, &units, &input, Rect::EMPTY, Fault::None);
                let right = Picture::of(width, height, |x, y| pixel(shape, &units, &input, x, y));
                assert_eq!(drawn, right, "{shape:?} {units:?} {input:?}");
            }
        }
    }
}

/// Documents 002 and 004: the picture, the kernel 1 to 9, second row and second column: 3,480 / 45.
#[test]
fn the_standards_example() {
    let picture = [
        0, 20, 40, 235, 235, 100, 120, 140, 235, 235, 200, 220, 240, 235, 235, 225, 225, 255, 255, 255, 225, 225, 255,
        255, 255,
    ];
    for edge in ["duplicate", "wrap", "none"] {
        let drawn = on(5, &picture, &format!("3 3 1 2 3 4 5 6 7 8 9  0 1 1 false {edge}"));
        assert_eq!(drawn[6], 77);
    }
}

/// Turned half round: a single 1 at column p of row q moves the picture by p − target right and q − target down.
#[test]
fn turned_half_round() {
    let middle = [0, 0, 0, 0, 9, 0, 0, 0, 0];
    for (n, place) in [(0, 0), (1, 1), (2, 2), (3, 3), (4, 4), (5, 5), (6, 6), (7, 7), (8, 8)] {
        let values: Vec<&str> = (0..9).map(|i| if i == n { "1" } else { "0" }).collect();
        let mut right = [0; 9];
        right[place] = 9;
        assert_eq!(on(3, &middle, &format!("3 3 {}  0 1 1 false none", values.join(" "))), right, "{n}");
    }
    assert_eq!(on(4, &[10, 20, 30, 40], "3 1 1 0 0  0 1 0 false none"), [20, 30, 40, 0]);
    assert_eq!(on(4, &[10, 20, 30, 40], "3 1 1 0 0  0 0 0 false none"), [30, 40, 0, 0]);
    assert_eq!(on(4, &[10, 20, 30, 40], "3 1 0 0 1  0 2 0 false none"), [0, 0, 10, 20]);
    assert_eq!(on(4, &[10, 20, 30, 40], "3 1 0 0 1  0 0 0 false none"), [10, 20, 30, 40]);
    assert_eq!(on(4, &[10, 20, 30, 40], "3 1 0 0 1  0 1 0 false none"), [0, 10, 20, 30]);
}

/// The values come by rows: order across in each.
#[test]
fn values_by_rows() {
    // Two columns and one row less than three columns: 2 wide, 3 high; the value in row 2, column 0 is the fifth.
    let drawn = on(2, &[9, 0, 0, 0, 0, 0, 0, 0], "2 3 0 0 0 0 1 0 1 0 0 0 false none");
    // Turned, it goes with the neighbour one to the right and none below: the picture moves left.
    assert_eq!(drawn, [0, 0, 0, 0, 0, 0, 0, 0]);
    let drawn = on(2, &[0, 9, 0, 0, 0, 0, 0, 0], "2 3 0 0 0 0 1 0 1 0 0 0 false none");
    assert_eq!(drawn, [9, 0, 0, 0, 0, 0, 0, 0]);
}

/// A line of 1 2 3 read two places further, round and round on canvases shorter than the kernel.
#[test]
fn edges() {
    let further = "5 1 1 0 0 0 0  0 0 0 false";
    assert_eq!(on(3, &[1, 2, 3], &format!("{further} duplicate")), [3, 3, 3]);
    assert_eq!(on(3, &[1, 2, 3], &format!("{further} wrap")), [2, 3, 1]);
    assert_eq!(on(3, &[1, 2, 3], &format!("{further} none")), [0, 0, 0]);
    let before = "5 1 0 0 0 0 1  0 4 0 false";
    assert_eq!(on(3, &[1, 2, 3], &format!("{before} duplicate")), [1, 1, 1]);
    assert_eq!(on(3, &[1, 2, 3], &format!("{before} wrap")), [3, 1, 2]);
    // One pixel: all 25 places are it, or one is.
    let ones = " 1".repeat(25);
    assert_eq!(on(1, &[10], &format!("5 5{ones}  0 2 2 false wrap")), [10]);
    assert_eq!(on(1, &[10], &format!("5 5{ones}  0 2 2 false duplicate")), [10]);
    assert_eq!(on(1, &[50], &format!("5 5{ones}  0 2 2 false none")), [2]);
    // A corner: both ways at once.
    assert_eq!(on(2, &[1, 2, 3, 4], "2 2 1 0 0 0  0 0 0 false wrap"), [4, 3, 2, 1]);
    assert_eq!(on(2, &[1, 2, 3, 4], "2 2 1 0 0 0  0 0 0 false duplicate"), [4, 4, 4, 4]);
}

/// Halves go up, whatever the divisor's sign; what is below zero is 0.
#[test]
fn divisors() {
    let row = [1, 3, 5, 255];
    assert_eq!(on(4, &row, "1 1 1 2 0 0 0 false none"), [1, 2, 3, 128]);
    assert_eq!(on(4, &row, "1 1 -1 -2 0 0 0 false none"), [1, 2, 3, 128]);
    assert_eq!(on(4, &row, "1 1 1 -2 0 0 0 false none"), [0; 4]);
    // 254.5 from above: 255 − 0.5.
    assert_eq!(on(1, &[255], "1 1 1 -2 1.498 0 0 false none"), [254]);
    assert_eq!(on(1, &[1], "1 1 1 -2 1 0 0 false none"), [1]);
    // Absent: the sum, or 1 where it is 0; below zero too.
    assert_eq!(on(4, &row, "1 1 -3  0 0 0 false none"), row);
    assert_eq!(on(4, &row, "2 1 -1 1  0 0 0 false none"), [0, 0, 0, 255]);
    // 0.0001 is 7 units, 0.0005 is 33: five of the one less the other are 2 units, not 0.
    let fine = "3 2 0.0001 0.0001 0.0001 0.0001 0.0001 -0.0005";
    assert_eq!(
        on(1, &[9], &format!("{fine}  0 2 1 false none")),
        on(1, &[9], &format!("{fine} x38000000 0 2 1 false none"))
    );
    // One unit is the smallest divisor.
    assert_eq!(on(1, &[1], "1 1 1 x37800000 0 0 0 false none"), [255]);
}

/// "The bias, for alpha too, is multiplied by the input's alpha at the result's own place."
#[test]
fn bias() {
    // 0, 50, 100.5: nothing of the neighbours, nothing where there is no alpha.
    assert_eq!(on(3, &[0, 100, 201], "3 1 0 0 0  0.5 1 0 false wrap"), [0, 50, 101]);
    // The neighbour's 40 and a half of the own alpha.
    assert_eq!(on(2, &[10, 40], "2 1 1 0  0.5 0 0 false none"), [45, 20]);
    let two = pixels("80402080 20104060");
    let line = |rest: &str| format!("conv 0 0 2 1 src 2 1 -1 1  {rest}\n");
    assert_eq!(last_layer(2, 1, &line("0.25 0 0 false none"), &two), pixels("40400040 38285878"));
    assert_eq!(last_layer(2, 1, &line("0.25 0 0 true none"), &two), pixels("653b0080 29194960"));
    // At the limits: 256·255 less 256·255.
    assert_eq!(on(1, &[255], "1 1 256 1 -256 0 0 false none"), [0]);
    assert_eq!(on(1, &[255], "1 1 256 1 -255 0 0 false none"), [255]);
}

/// Limited, then lowered to alpha; or unpremultiplied, alpha kept, premultiplied.
#[test]
fn alpha() {
    let two = pixels("80402080 20104060");
    let line = |rest: &str| format!("conv 0 0 2 1 src 2 1 -1 1  {rest}\n");
    assert_eq!(last_layer(2, 1, &line("0 0 0 false none"), &two), pixels("20200020 20104060"));
    assert_eq!(last_layer(2, 1, &line("0 0 0 true none"), &two), pixels("552b0080 20104060"));
    // Transparent places count as 0 0 0 straight, and stay transparent.
    let clear = pixels("00000000 ffffffff");
    let mean = "conv 0 0 2 1 src 3 1 1 1 1 2 0 1 0 true none\n";
    assert_eq!(last_layer(2, 1, mean, &clear), pixels("00000000 808080ff"));
}

/// In linear light the source is converted first: 128 is 55, 64 is 13, 32 is 4.
#[test]
fn spaces() {
    let line = "conv 0 0 1 1 src 1 1 2 1 0 0 0 false none";
    let drawn_as = |ending: &str| drawn(1, 1, &as_written(&format!("{line}{ending}\n")), &pixels("804020ff")).1;
    assert_eq!(drawn_as(" srgb"), pixels("ff8040ff"));
    assert_eq!(drawn_as(" linear"), pixels("6e1a08ff"));
    assert_eq!(drawn_as(""), drawn_as(" linear"));
}
