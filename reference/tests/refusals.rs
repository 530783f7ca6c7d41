//! Every refusal number with its place, in the order of checking.

mod common;

use common::*;
use reference::check::{check, Answer, Call};
use reference::fault::Fault;
use reference::number::Number;
use reference::render::layer;
use reference::step::{Input, Kind, Region, Step};

/// A call with right buffers on a canvas of 2 by 2 whose lengths and pictures can be spoilt.
struct Given {
    width: usize,
    height: usize,
    steps: Vec<Step>,
    rect: Option<Region>,
    source: Vec<u8>,
    workspace: Vec<u8>,
    scratch: Vec<u8>,
}

impl Given {
    fn new(lines: &str) -> Given {
        let steps = steps(lines);
        let workspace = vec![0; 16 * steps.len()];
        Given {
            width: 2,
            height: 2,
            steps,
            rect: Some(region(0, 0, 2, 2)),
            source: vec![0; 16],
            workspace,
            scratch: vec![0; 32],
        }
    }

    fn answer(&self) -> (u8, u64) {
        let Given { width, height, steps, rect, source, workspace, scratch } = self;
        let call = Call { width: *width, height: *height, steps, rect: *rect, source, workspace, scratch };
        check(&call, Fault::None).map_or_else(|answer| (answer.number, answer.place), |_| (0, 0))
    }
}

const COPY: &str = "lumalpha 0 0 2 2 src\n";

/// Spoils everything; what is put right step by step uncovers the next refusal.
#[test]
fn one_after_another() {
    let mut given = Given::new("blur 3 0 1 1 5 x7fc00000 0\n");
    given.width = 0;
    given.source = vec![1, 0, 0, 0, 0];
    let step = std::mem::take(&mut given.steps);
    given.workspace = vec![0; 3];
    given.scratch = vec![0; 3];
    given.rect = Some(region(0, 0, 3, 1));

    assert_eq!(given.answer(), (1, 0));
    given.width = 2;
    assert_eq!(given.answer(), (2, 0));
    given.source = vec![9; 16];
    given.source[3] = 8;
    assert_eq!(given.answer(), (3, 0));
    given.steps = step;
    assert_eq!(given.answer(), (4, 0));
    given.workspace = [[0; 4], [0, 0, 1, 0], [0; 4], [0; 4]].concat();
    assert_eq!(given.answer(), (5, 0));
    given.scratch = vec![0; 32];
    assert_eq!(given.answer(), (6, 0));
    given.rect = Some(region(2, 2, 0, 0));
    assert_eq!(given.answer(), (7, 0));
    given.steps[0].inputs = vec![Input::Alpha];
    for (number, expected) in [(0x7fc0_0000, 8), (0xc000_0000, 9), (0x4200_0001, 10)] {
        given.steps[0].numbers[0] = Number::Single(number);
        assert_eq!(given.answer(), (expected, 0));
    }
    given.steps[0].kind = Kind::Erode;
    given.steps[0].numbers[0] = Number::Decimal(5000);
    assert_eq!(given.answer(), (11, 0));
    given.steps[0].numbers[0] = Number::Decimal(0);
    assert_eq!(given.answer(), (13, 0));
    given.steps[0].region.x = 1;
    assert_eq!(given.answer(), (14, 0));
    given.source[3] = 9;
    assert_eq!(given.answer(), (14, 1));
    given.workspace[6] = 0;
    assert_eq!(given.answer(), (0, 0));
}

#[test]
fn canvas() {
    for (width, height) in [(0, 2), (2, 0), (1025, 2), (2, 1025), (usize::MAX, usize::MAX), (0, 0)] {
        let mut given = Given::new(COPY);
        (given.width, given.height) = (width, height);
        assert_eq!(given.answer(), (1, 0));
    }
}

#[test]
fn numbers_of_steps() {
    for count in [1, 16, 17, 63, 64] {
        assert_eq!(Given::new(&COPY.repeat(count)).answer(), (0, 0));
    }
    let mut given = Given::new(&COPY.repeat(64));
    let again = given.steps[0].clone();
    given.steps.push(again);
    given.workspace = vec![0; 16 * 65];
    assert_eq!(given.answer(), (3, 0));
    given.steps.clear();
    given.workspace.clear();
    assert_eq!(given.answer(), (3, 0));
}

/// Layers of every number, and a workspace for as many layers as there are steps.
#[test]
fn long_sheets() {
    let chain: String =
        (0..64).map(|n| if n == 0 { COPY.into() } else { format!("over 0 0 2 2 {} src\n", n - 1) }).collect();
    let mut given = Given::new(&chain);
    assert_eq!(given.answer(), (0, 0));
    given.workspace = vec![0; 16 * 16];
    assert_eq!(given.answer(), (4, 0));
    given.workspace = vec![0; 16 * 64];
    given.steps[63].inputs[0] = Input::Layer(63);
    assert_eq!(given.answer(), (7, 63));
}

#[test]
fn rectangles() {
    let far = usize::MAX;
    let wrong = [
        region(0, 0, 3, 1),
        region(0, 2, 1, 1),
        region(3, 0, 0, 0),
        region(0, 3, 1, 0),
        region(far, 0, 1, 1),
        region(1, 0, far, 1),
        region(far, far, far, far),
    ];
    let right = [region(2, 2, 0, 0), region(0, 0, 0, 2), region(1, 1, 1, 1)];
    for (rects, number) in [(&wrong[..], 6), (&right[..], 0)] {
        for rect in rects {
            let mut given = Given::new(COPY);
            given.rect = Some(*rect);
            assert_eq!(given.answer(), (number, 0), "{rect:?}");
            given.rect = None;
            assert_eq!(given.answer(), (0, 0));
        }
    }
}

#[test]
fn inputs() {
    let first = "flood 0 0 2 2 1 2 3 1\n";
    for (line, answer) in [
        ("over 0 0 2 2 0 1\n", (7, 1)),
        ("over 0 0 2 2 1 0\n", (7, 1)),
        ("merge 0 0 2 2 0 src 0 9999\n", (7, 1)),
        ("merge 0 0 2 2 0 src 0 alpha\n", (0, 0)),
    ] {
        assert_eq!(Given::new(&format!("{first}{line}")).answer(), answer);
    }
    for count in [0, 5] {
        let mut given = Given::new("flood 0 0 2 2 1 2 3 1\nmerge 0 0 2 2 0\n");
        given.steps[1].inputs = vec![Input::Source; count];
        assert_eq!(given.answer(), (7, 1));
    }
}

#[test]
fn unused_inputs_and_numbers_are_not_looked_at() {
    let mut given = Given::new("flood 0 0 2 2 1 2 3 1\nlumalpha 0 0 2 2 0\n");
    given.steps[0].inputs = vec![Input::Layer(9)];
    given.steps[1].inputs.push(Input::Layer(9));
    given.steps[1].numbers.push(Number::Single(0x7fc0_0000));
    assert_eq!(given.answer(), (0, 0));
}

#[test]
fn steps_in_order_and_numbers_in_order() {
    let bad = "offset 0 0 2 2 src 0.5 x7fc00000\n";
    assert_eq!(Given::new(&format!("{COPY}{bad}")).answer(), (11, 1));
    assert_eq!(Given::new(&format!("{COPY}{COPY}lumalpha 0 0 3 2 src\n{bad}")).answer(), (13, 2));
    assert_eq!(
        Given::new("matrix 0 0 2 2 src 0 0 0 0 0 0 0 0 0 0 0 0 0 0 0 0 0 0 256.0001 x7fc00000\n").answer(),
        (10, 0)
    );
    assert_eq!(Given::new("blur 0 0 2 2 src 33 -1\n").answer(), (10, 0));
    assert_eq!(Given::new("blur 0 0 2 2 src -1 33\n").answer(), (9, 0));
}

#[test]
fn regions() {
    for (line, number) in [
        ("0 0 2 3", 13),
        ("2 0 1 1", 13),
        ("2 2 0 0", 0),
        ("3 0 0 0", 13),
        ("0 3 0 0", 13),
        ("9999 9999 9999 9999", 13),
        ("0 0 1025 0", 13),
    ] {
        assert_eq!(Given::new(&format!("lumalpha {line} src\n")).answer(), (number, 0), "{line}");
    }
}

#[test]
fn pixels_of_the_whole_workspace() {
    let mut given = Given::new(&COPY.repeat(3));
    given.workspace[4 * 9 + 1] = 1;
    assert_eq!(given.answer(), (14, 9));
    given.source[4 * 3] = 1;
    assert_eq!(given.answer(), (14, 3));
    given.rect = None;
    given.source[4 * 3] = 0;
    assert_eq!(given.answer(), (0, 0));
}

/// Why 12 could be retired: it was for boxes whose bytes add up to more than 65,535. Of all units up to 32 the widest
/// box holds 61 bytes, a sum of 15,555.
#[test]
fn widest_box() {
    use reference::window::{box_size, boxes};
    let widest = |units: i64| boxes(box_size(units, Fault::None), Fault::None).iter().map(|(a, b)| b - a + 1).max();
    let bytes = (0..=32 * 65_536).filter_map(widest).max();
    assert_eq!(bytes, Some(61));
    assert_eq!(bytes.map(|bytes| 255 * bytes), Some(15_555));
}

#[test]
fn a_refusal_leaves_the_buffers() {
    for line in ["blur 0 0 2 2 src -1 0\n", "lumalpha 0 0 3 2 src\n", "lumalpha 0 0 2 2 0\n"] {
        assert_ne!(drawn(2, 2, &steps(line), &[0; 16]).0, Answer::DONE);
    }
    let mut workspace = vec![5, 4, 4, 4];
    assert_eq!(
        redrawn(1, 1, &steps("lumalpha 0 0 1 1 src\n"), region(0, 0, 1, 1), &[0; 4], &mut workspace),
        (Answer::refused(14, 0), 0)
    );
    assert_eq!(workspace, [5, 4, 4, 4]);
}

#[test]
fn view() {
    let shown = |width, height, steps, n, length| layer(width, height, steps, n, length, Fault::None);
    assert_eq!(shown(2, 3, 3, 0, 72), (0, 24));
    assert_eq!(shown(2, 3, 3, 2, 72), (48, 24));
    assert_eq!(shown(1, 1, 17, 16, 68), (64, 4));
    assert_eq!(shown(1, 1, 64, 63, 256), (252, 4));
    for (width, height, steps, n, length) in [
        (2, 3, 3, 3, 72),
        (2, 3, 3, 0, 71),
        (0, 3, 3, 0, 0),
        (2, 3, 0, 0, 0),
        (1, 1, 65, 0, 260),
        (usize::MAX, 3, 3, 0, 72),
    ] {
        assert_eq!(shown(width, height, steps, n, length), (0, 0));
    }
}
