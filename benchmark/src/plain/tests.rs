//! The plain version against the second program, byte for byte.
use super::convolve::convolution;
use super::curve::{self, Curve};
use super::kernel::{Kernel, Numbers};
use super::space::{Conversion, Space};
use super::{units, Plain};
use crate::calls::{Answer, Call, Region, Renderer};
use reference::cases::{damage_picture, picture, region, sheet, style};
use reference::fault::Fault;
use reference::random::Random;
use reference::render::{redraw, render, Sheet};
use reference::{check, print, step, text, transfer};

/// The second program in the place of the proved library, with a fault or without.
pub struct Second(pub Fault);

fn answer(answer: check::Answer, count: u64) -> Answer {
    Answer { number: answer.number.into(), place: answer.place, count }
}

impl Renderer for Second {
    fn render(&self, call: Call) -> Answer {
        let steps = text::steps_of(call.steps, self.0).expect("well formed");
        let sheet = Sheet::whole(call.width, call.height, &steps);
        answer(render(sheet, call.source, call.workspace, call.scratch, self.0), 0)
    }

    fn redraw(&self, call: Call, changed: Region) -> Answer {
        let steps = text::steps_of(call.steps, self.0).expect("well formed");
        let sheet = Sheet::whole(call.width, call.height, &steps);
        let Region { x, y, width, height } = changed;
        let rect = step::Region { x, y, width, height };
        let (said, count) = redraw(sheet, rect, call.source, call.workspace, call.scratch, self.0);
        answer(said, count)
    }
}

struct Case {
    width: usize,
    height: usize,
    steps: Vec<u8>,
    changed: Region,
    source: Vec<u8>,
    workspace: Vec<u8>,
    scratch: Vec<u8>,
}

/// A case of these step lines, now and then with a buffer that is refused.
fn case(random: &mut Random, width: usize, height: usize, steps: String) -> Case {
    let (size, count) = (width * height, steps.lines().count());
    let step::Region { x, y, width: across, height: down } = region(random, width, height);
    let changed = Region { x, y, width: across, height: down };
    let (mut source, mut workspace) = (picture(random, size), picture(random, size * count));
    let mut scratch: Vec<u8> = (0..8 * size).map(|_| random.byte()).collect();
    match random.below(40) {
        0 => damage_picture(random, &mut source),
        1 => damage_picture(random, &mut workspace),
        2 => drop(source.pop()),
        3 => workspace.push(0),
        4 => scratch.push(0),
        _ => {}
    }
    Case { width, height, steps: steps.into_bytes(), changed, source, workspace, scratch }
}

/// Answer, workspace and scratch of a call.
fn after(case: &Case, partly: bool, by: &dyn Renderer) -> (Answer, Vec<u8>, Vec<u8>) {
    let (mut workspace, mut scratch) = (case.workspace.clone(), case.scratch.clone());
    let Case { width, height, steps, source, .. } = case;
    let call = Call { width: *width, height: *height, steps, source, workspace: &mut workspace, scratch: &mut scratch };
    let answer = if partly { by.redraw(call, case.changed) } else { by.render(call) };
    (answer, workspace, scratch)
}

fn same(case: &Case) {
    let first = |a: &[u8], b: &[u8]| a.iter().zip(b).position(|(a, b)| a != b);
    for partly in [false, true] {
        let (plain, second) = (after(case, partly, &Plain), after(case, partly, &Second(Fault::None)));
        let said = || format!("redraw {partly}, {} x {}: {}", case.width, case.height, String::from_utf8_lossy(&case.steps));
        assert_eq!(plain.0, second.0, "{}", said());
        assert_eq!(first(&plain.1, &second.1), None, "workspace, {}", said());
        assert_eq!(first(&plain.2, &second.2), None, "scratch, {}", said());
    }
}

#[test]
fn random_sheets() {
    let mut random = Random::new(7);
    let side = |random: &mut Random| if random.once_in(12) { 140 } else { 1 + random.below(40) };
    for _ in 0..3000 {
        let (width, height, count) = (side(&mut random), side(&mut random), 1 + random.below(5));
        let steps = print::steps(&sheet(&mut random, count, width, height, false), style(&mut random));
        same(&case(&mut random, width, height, steps));
    }
}

/// Windows of every size, on canvases that they leave on one side, on both, or not.
#[test]
fn every_window() {
    let mut random = Random::new(8);
    for n in 0..=64 {
        for kind in ["erode", "dilate", "blur"] {
            let number = |n: usize| if kind == "blur" { format!("{}.{}", n / 2, n % 2 * 5) } else { n.to_string() };
            for (across, down) in [(n, 0), (0, n), (n, n), (random.below(65), n)] {
                let (width, height) = (1 + random.below(n + 20), 1 + random.below(n + 20));
                let step::Region { x, y, width: w, height: h } = region(&mut random, width, height);
                let space = random.pick(&["", "\tlinear", "\tsrgb"]);
                let steps = format!("{kind}\t{x}\t{y}\t{w}\t{h}\tsrc\t{}\t{}{space}\n", number(across), number(down));
                same(&case(&mut random, width, height, steps));
            }
        }
    }
}

/// Every colour at every alpha.
#[test]
fn every_conversion() {
    for (to, theirs) in [(Space::Srgb, reference::space::Space::Srgb), (Space::Linear, reference::space::Space::Linear)] {
        let conversion = Conversion::new(to);
        for alpha in 0..=255 {
            for colour in 0..=alpha {
                let (pixel, mut converted) = ([colour, alpha, 0, alpha], [0; 4]);
                conversion.row(&pixel, &mut converted);
                assert_eq!(converted, reference::space::convert(theirs, pixel, Fault::None));
            }
        }
    }
}

/// A random component transfer: its maps by the plain version, from its fields, and by the second program.
fn maps(random: &mut Random) -> (curve::Maps, transfer::Maps) {
    loop {
        let step = reference::cases::step(random, 0, 1, 1, false);
        let step::Kind::Curve(transfers) = step.kind else { continue };
        let line = print::step(&step::Step { space: reference::space::Space::Linear, ..step.clone() }, 0, print::Style::default());
        let fields: Vec<&str> = line.trim_end().split('\t').skip(6).collect();
        let numbers: Vec<i64> = step.numbers.iter().map(|number| units(&print::number(*number, 0))).collect();
        return (curve::maps(&fields, units), transfer::maps(transfers, &numbers, Fault::None));
    }
}

/// Every colour at every alpha, by tables and by maps alone, with a conversion in the tables and without.
#[test]
fn every_curve() {
    let mut random = Random::new(9);
    let valid = (0..=255).flat_map(|a| (0..=a).map(move |c| [c, a - c, a, a]));
    let pixels: Vec<[u8; 4]> = valid.collect();
    let linear = |p: &[u8; 4]| reference::space::convert(reference::space::Space::Linear, *p, Fault::None);
    for _ in 0..40 {
        let (ours, theirs) = maps(&mut random);
        assert_eq!(ours, theirs);
        let conversion = Conversion::new(Space::Linear);
        let drawn = |curve: Curve| {
            let mut drawn = pixels.concat();
            curve.row(&pixels.concat(), &mut drawn);
            drawn
        };
        let second = |p: [u8; 4]| transfer::curve(&theirs, p, Fault::None);
        let stored: Vec<u8> = pixels.iter().flat_map(|p| second(*p)).collect();
        let converted: Vec<u8> = pixels.iter().flat_map(|p| second(linear(p))).collect();
        assert!(drawn(Curve::new(ours, 1, None)) == stored);
        assert!(drawn(Curve::new(ours, 1_000_000, None)) == stored);
        assert!(drawn(Curve::new(ours, 1_000_000, Some(&conversion))) == converted);
        assert!(Curve::new(ours, 1_000_000, None).converts() && !Curve::new(ours, 1, None).converts());
    }
}

/// A canvas large enough for tables, in both spaces.
#[test]
fn large_curves() {
    let mut random = Random::new(10);
    for space in ["", "\tsrgb"] {
        let maps = "table\t3\t0\t1\t0.5\tdiscrete\t3\t1\t0\t0.5\tlinear\t-1\t1\tlinear\t0.5\t0.25";
        let first = format!("curve\t0\t0\t300\t290\tsrc\t{maps}{space}\n");
        let steps = format!("{first}curve\t3\t0\t290\t290\t0\t{maps}\ncurve\t0\t1\t300\t280\talpha\t{maps}\n");
        same(&case(&mut random, 300, 290, steps));
    }
}

/// A line of convolution: orders, values, divisor, bias, target, choices.
fn conv(random: &mut Random, [columns, rows]: [usize; 2], value: impl Fn(&mut Random) -> String, numbers: [&str; 2]) -> String {
    let values: Vec<String> = (0..columns * rows).map(|_| value(random)).collect();
    let (across, down) = (random.below(columns), random.below(rows));
    let (preserve, edge) = (random.pick(&["true", "false"]), random.pick(&["duplicate", "wrap", "none"]));
    let [divisor, bias] = numbers;
    format!("{columns}\t{rows}\t{}\t{divisor}\t{bias}\t{across}\t{down}\t{preserve}\t{edge}", values.join("\t"))
}

/// Every order, with values of every size: sums of 16 bits and of 64, divisors of both signs, on small canvases and large ones.
#[test]
fn every_kernel() {
    let mut random = Random::new(11);
    for orders in (1..=5).flat_map(|c| (1..=5).map(move |r| [c, r])) {
        for round in 0..24 {
            let most = [2, 5, 10, 256][round % 4];
            let whole = move |random: &mut Random| random.within(-most, most).to_string();
            let part = |random: &mut Random| format!("{}.{:04}", random.within(-9, 9), random.below(10_000));
            let divisor = random.pick(&["", "", "1", "-1", "2", "3", "-3", "9", "16", "-61", "256", "0.5", "-0.25", "7.3333"]);
            let bias = random.pick(&["0", "0", "0.5", "-0.25", "256"]);
            let kernel = if round % 6 == 5 {
                conv(&mut random, orders, part, [divisor, bias])
            } else {
                conv(&mut random, orders, whole, [divisor, bias])
            };
            let longest = if round == 0 { 300 } else { 9 };
            let (width, height) = (1 + random.below(longest), 1 + random.below(longest));
            let step::Region { x, y, width: w, height: h } = region(&mut random, width, height);
            let (input, space) = (random.pick(&["src", "alpha"]), random.pick(&["", "\tlinear", "\tsrgb"]));
            let steps = format!("conv\t{x}\t{y}\t{w}\t{h}\t{input}\t{kernel}{space}\n");
            same(&case(&mut random, width, height, steps));
        }
    }
}

/// Which kernels are summed in 16 bits, and that each divisor of these divides exactly.
#[test]
fn small_kernels() {
    let is_small = |fields: &str| convolution(&fields.split(' ').collect::<Vec<_>>(), units).kernel.is_small();
    for small in [
        "1 1 1  0 0 0 true none",
        "3 3 1 2 1 2 4 2 1 2 1  0 1 1 true none",
        "3 3 0.25 0.5 0.25 0.5 1 0.5 0.25 0.5 0.25  0 1 1 true none",
        "3 3 0 -1 0 -1 5 -1 0 -1 0  0 1 1 true none",
        "5 5 1 4 6 4 1 4 16 24 16 4 6 24 36 24 6 4 16 24 16 4 1 4 6 4 1  0 2 2 true none",
        "1 1 -0.5 -0.5 0 0 0 true none",
    ] {
        assert!(is_small(small), "{small}");
    }
    for general in ["1 1 1  0.5 0 0 true none", "1 1 0.3333 0.5 0 0 0 true none", "2 1 256 255  0 0 0 true none"] {
        assert!(!is_small(general), "{general}");
    }
    let alphas: Vec<u8> = (0..=255).flat_map(|a| [0, a / 2, a, a]).collect();
    for (divisor, value) in (1..=257).flat_map(|d| [(d, 1), (d, 85), (d, 200)]) {
        let numbers = Numbers { values: vec![65_536 * value], divisor: Some(65_536 * divisor), bias: 0 };
        let (kernel, mut drawn) = (Kernel::new([1, 1], [0, 0], false, &numbers), alphas.clone());
        kernel.row(std::slice::from_ref(&alphas), &mut drawn);
        let right = |c: &u8| ((2 * i64::from(*c) * value + divisor) / (2 * divisor)).min(255) as u8;
        assert_eq!(drawn, alphas.iter().map(right).collect::<Vec<u8>>(), "{value} by {divisor}");
    }
}
