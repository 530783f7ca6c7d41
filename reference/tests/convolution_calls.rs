//! Convolution: redraw rectangles, and refusals in their order.

mod common;

use common::*;
use reference::check::Answer;

/// "With none it grows by order − 1 − target left or up and by target right or down"; else the whole canvas.
#[test]
fn rectangles() {
    let count = |step: &str, rect| {
        let steps = steps(step);
        redrawn(8, 6, &steps, rect, &alphas(&[0; 48]), &mut alphas(&vec![3; 48 * steps.len()]))
    };
    let kernel = |edge: &str, target: &str| format!("5 3{}  0 {target} false {edge}", " 1".repeat(15));
    let one = region(3, 2, 1, 1);
    for (target, area) in [("0 0", 4 * 3), ("4 0", 5 * 3), ("2 1", 5 * 3), ("0 2", 4 * 3), ("1 1", 5 * 3)] {
        let step = format!("conv 0 0 8 6 src {}\n", kernel("none", target));
        assert_eq!(count(&step, one), (Answer::DONE, area), "{target}");
    }
    for edge in ["wrap", "duplicate"] {
        let step = format!("conv 0 0 8 6 src {}\n", kernel(edge, "2 1"));
        assert_eq!(count(&step, one), (Answer::DONE, 48));
        assert_eq!(count(&step, region(3, 2, 0, 1)), (Answer::DONE, 0));
        let cut = format!("conv 5 4 3 2 src {}\n", kernel(edge, "2 1"));
        assert_eq!(count(&cut, one), (Answer::DONE, 6));
        // Where the input's is empty, so is its own.
        let flooded = format!("flood 0 0 8 6 1 2 3 1\nconv 0 0 8 6 0 {}\n", kernel(edge, "2 1"));
        assert_eq!(count(&flooded, one), (Answer::DONE, 0));
    }
    // Exactly: 4 columns to the left of the change, none to the right; 2 rows below it.
    let mut workspace = alphas(&[3; 48]);
    let step = format!("conv 0 0 8 6 src {}\n", kernel("none", "0 2"));
    redrawn(8, 6, &steps(&step), region(5, 1, 1, 1), &alphas(&[0; 48]), &mut workspace);
    let kept = |n: usize| !((1..6).contains(&(n % 8)) && (1..4).contains(&(n / 8)));
    assert_eq!(workspace, alphas(&(0..48).map(|n| if kept(n) { 3 } else { 0 }).collect::<Vec<_>>()));
}

/// 7, 17 for the target, 8 to 11 in order, 17 for the divisor, 13.
#[test]
fn refusals_of_lines() {
    let answer = |line: &str| drawn(1, 1, &steps(&format!("lumalpha 0 0 1 1 src\nconv {line}\n")), &[0; 4]).0;
    for (line, number) in [
        ("0 0 1 1 1 1 1 x7fc00000 0 0 1 1 true wrap", 7),
        ("9 0 1 1 0 1 1 x7fc00000 0 0 1 0 true wrap", 17),
        ("9 0 1 1 0 1 1 x7fc00000 0 0 0 1 true wrap", 17),
        ("9 0 1 1 0 5 1 1 1 1 1 1  0 5 0 true wrap", 17),
        ("9 0 1 1 0 1 5 1 1 1 1 1  0 0 9999 true wrap", 17),
        ("9 0 1 1 0 1 1 x7fc00000 0 0 0 0 true wrap", 8),
        ("9 0 1 1 0 1 1 -256.0001 0 0 0 0 true wrap", 10),
        ("9 0 1 1 0 1 1 1 256.0001 x7fc00000 0 0 true wrap", 10),
        ("9 0 1 1 0 1 1 1 0 x7f800000 0 0 true wrap", 8),
        ("9 0 1 1 0 1 1 1 0 x43800001 0 0 true wrap", 10),
        ("9 0 1 1 0 1 1 1 0 0 0 0 true wrap", 17),
        ("9 0 1 1 0 1 1 1 -0 0 0 0 true wrap", 17),
        ("9 0 1 1 0 1 1 1 x80000000 0 0 0 true wrap", 17),
        ("9 0 1 1 0 1 1 1 x37000000 0 0 0 true wrap", 17),
        ("9 0 1 1 0 1 1 1 xb7000000 0 0 0 true wrap", 17),
        ("9 0 1 1 0 1 1 1 x37000001 0 0 0 true wrap", 13),
        ("9 0 1 1 0 1 1 1  0 0 0 true wrap", 13),
        ("9 0 1 1 0 1 1 0  0 0 0 true wrap", 13),
    ] {
        assert_eq!(answer(line), Answer::refused(number, 1), "{line}");
    }
    for line in ["1 1 256 -256 256 0 0 true wrap", "1 1 -256 x00000001 -256 0 0 true wrap", "1 1 0  0 0 0 false none"] {
        let done = !line.contains("x00000001");
        assert_eq!(answer(&format!("0 0 1 1 0 {line}")) == Answer::DONE, done, "{line}");
    }
}
