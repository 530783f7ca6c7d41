//! The library on the worked examples of RULES 11, and on calls that it must refuse.

use twillgoose::{layer, redraw, render, scratch_len, sheet, workspace_len, Rect, Refusal};

/// Steps with spaces for tabs, each with `srgb`.
fn lines(steps: &str) -> String {
    steps.lines().map(|line| line.replace(' ', "\t") + "\tsrgb\n").collect()
}

fn count(steps: &str) -> usize {
    steps.lines().count()
}

/// The workspace after a render.
fn rendered(width: usize, height: usize, steps: &str, source: &[u8]) -> Result<Vec<u8>, Refusal> {
    let mut workspace = vec![7; workspace_len(width, height, count(steps))];
    let mut scratch = vec![7; scratch_len(width, height)];
    let answer = render(width, height, lines(steps), source, &mut workspace, &mut scratch);
    let left = if answer.is_ok() { 0 } else { 7 };
    assert!(scratch.iter().all(|byte| *byte == left));
    if answer.is_err() {
        assert!(workspace.iter().all(|byte| *byte == 7));
    }
    answer.map(|()| workspace)
}

fn last_layer(width: usize, height: usize, steps: &str, source: &[u8]) -> Vec<u8> {
    let workspace = rendered(width, height, steps, source).expect("accepted");
    layer(width, height, count(steps), count(steps) - 1, &workspace).expect("a layer").to_vec()
}

fn alphas(alphas: &[u8]) -> Vec<u8> {
    alphas.iter().flat_map(|alpha| [0, 0, 0, *alpha]).collect()
}

#[test]
fn one_number_of_the_rules() {
    assert_eq!(twillgoose::rules(), twillgoose::RULES);
    let page = std::fs::read_to_string(concat!(env!("CARGO_MANIFEST_DIR"), "/../../docs/RULES.md")).expect("the rules");
    assert!(page.contains(&format!("these are **rules {}**", twillgoose::RULES)));
}

#[test]
fn over() {
    let steps = "flood 0 0 1 1 255 0 0 0.5\nover 0 0 1 1 0 src\n";
    assert_eq!(last_layer(1, 1, steps, &[0, 0, 255, 255]), [0x80, 0, 0x7f, 0xff]);
}

#[test]
fn blur_and_dilate() {
    let row = alphas(&[0, 0, 255, 0, 0]);
    assert_eq!(last_layer(5, 1, "blur 0 0 5 1 src 1.5 0\n", &row), alphas(&[28, 57, 66, 57, 28]));
    let row = alphas(&[0, 255, 0]);
    assert_eq!(last_layer(3, 1, "dilate 0 0 3 1 src 1 0\n", &row), alphas(&[255, 255, 255]));
}

#[test]
fn a_redraw_gives_the_new_layers() {
    let steps = "dilate 0 0 8 1 src 1 0\nblur 0 0 8 1 0 1 0\n";
    let old = alphas(&[9, 0, 0, 200, 0, 0, 30, 0]);
    let mut new = old.clone();
    new[15] = 255;
    let mut workspace = rendered(8, 1, steps, &old).expect("accepted");
    let mut scratch = vec![1; scratch_len(8, 1)];
    let rect = Rect { x: 3, y: 0, width: 1, height: 1 };
    let count = redraw(8, 1, lines(steps), rect, &new, &mut workspace, &mut scratch);
    assert_eq!(count, Ok(3 + 7));
    assert_eq!(workspace, rendered(8, 1, steps, &new).expect("accepted"));
    assert_eq!(scratch, vec![0; scratch_len(8, 1)]);
}

#[test]
fn refusals_with_their_places() {
    let clear = "lumalpha 0 0 1 1 src\n";
    let refused = |steps: &str| rendered(1, 1, &format!("{clear}{steps}"), &[0; 4]).expect_err("refused");
    assert_eq!(refused("blur 0 0 1 1 src -0.0001 0\n"), Refusal::Negative(1));
    assert_eq!(refused("blur 0 0 1 1 src x42000001 0\n"), Refusal::OutOfRange(1));
    assert_eq!(refused("blur 0 0 1 1 src x7fc00000 0\n"), Refusal::NotFinite(1));
    assert_eq!(refused("offset 0 0 1 1 src 0.5 0\n"), Refusal::NotWhole(1));
    assert_eq!(refused("lumalpha 1 0 1 1 src\n"), Refusal::OutsideCanvas(1));
    assert_eq!(refused("lumalpha 0 0 1 1 1\n"), Refusal::Input(1));
    assert_eq!(refused("lumalpha 0 0 1 1 01\n"), Refusal::Line(2));
    assert_eq!(rendered(1, 1, clear, &[0, 1, 0, 0]), Err(Refusal::AboveAlpha(0)));
    assert_eq!(rendered(1, 1, "", &[0; 4]), Err(Refusal::StepCount));
    assert_eq!(rendered(1, 1, clear, &[0; 3]), Err(Refusal::Source));
    assert_eq!(rendered(0, 1, clear, &[]), Err(Refusal::Canvas));
    assert!(rendered(1, 1, "blur 0 0 1 1 src x80000000 32\n", &[0; 4]).is_ok());
}

#[test]
fn refused_buffers_and_rectangles() {
    let steps = lines("lumalpha 0 0 1 1 src\n");
    let (mut layers, mut scratch) = ([0; 4], [0; 8]);
    assert_eq!(render(1, 1, &steps, &[0; 4], &mut layers[..3], &mut scratch), Err(Refusal::Workspace));
    assert_eq!(render(1, 1, &steps, &[0; 4], &mut layers, &mut []), Err(Refusal::Scratch));
    let rect = Rect { x: usize::MAX, y: 0, width: 2, height: 0 };
    assert_eq!(redraw(1, 1, &steps, rect, &[0; 4], &mut layers, &mut scratch), Err(Refusal::Rectangle));
    assert_eq!(redraw(1, 1, &steps, Rect::default(), &[0; 4], &mut layers, &mut scratch), Ok(0));
    layers[1] = 1;
    let answer = redraw(1, 1, &steps, Rect::default(), &[0; 4], &mut layers, &mut scratch);
    assert_eq!(answer, Err(Refusal::AboveAlpha(0)));
}

#[test]
fn layers_that_are_not_there() {
    let workspace = [1; 16];
    assert_eq!(layer(2, 1, 2, 1, &workspace), Some(&workspace[8..]));
    for (width, height, steps, n) in [(2, 1, 2, 2), (0, 1, 2, 0), (2, 2, 2, 0), (2, 1, 0, 0), (usize::MAX, 1, 1, 0)] {
        assert_eq!(layer(width, height, steps, n, &workspace), None);
    }
}

#[test]
fn sheets_as_text() {
    let text =
        format!("canvas\t2\t1\n{}row\t0000ffff\t00000080\n", lines("flood 0 0 1 1 255 0 0 0.5\nover 0 0 2 1 0 src\n"));
    assert_eq!(sheet(text.as_bytes()), b"ok\nrow\t80007fff\t00000080\n");
    assert_eq!(sheet(b""), b"refused\t15\t1\n");
    assert_eq!(sheet(&[0; 65_537]), b"refused\t15\t0\n");
    let row = format!("row{}\n", "\t00000000".repeat(16)).repeat(16);
    let largest = format!("canvas\t16\t16\nlumalpha\t0\t0\t16\t16\tsrc\n{row}");
    assert_eq!(sheet(largest.as_bytes()).len(), twillgoose::LONGEST_ANSWER);
}

/// 128, 64 and 32 are 55, 13 and 4 in linear light, and these are 128, 64 and 34 in sRGB. A layer has its step's space;
/// only `sheet` prints sRGB.
#[test]
fn linear_light() {
    let source = [0x80, 0x40, 0x20, 0xff];
    let (mut layers, mut scratch) = ([0; 8], [0; 8]);
    let steps = "offset\t0\t0\t1\t1\tsrc\t0\t0\noffset\t0\t0\t1\t1\t0\t0\t0\tsrgb\n";
    assert_eq!(render(1, 1, steps, &source, &mut layers, &mut scratch), Ok(()));
    assert_eq!(layers, [0x37, 0x0d, 0x04, 0xff, 0x80, 0x40, 0x22, 0xff]);
    for (space, printed) in [("", "804022ff"), ("\tlinear", "804022ff"), ("\tsrgb", "804020ff")] {
        let text = format!("canvas\t1\t1\noffset\t0\t0\t1\t1\tsrc\t0\t0{space}\nrow\t804020ff\n");
        assert_eq!(sheet(text.as_bytes()), format!("ok\nrow\t{printed}\n").into_bytes());
    }
    for wrong in ["sRGB", "linearRGB", "", "srgb\tsrgb"] {
        let steps = format!("lumalpha\t0\t0\t1\t1\tsrc\t{wrong}\n");
        assert_eq!(render(1, 1, steps, &[0; 4], &mut layers[..4], &mut scratch), Err(Refusal::Line(1)));
    }
}

/// Straight 128 64 0 at 80 are mapped to 127 64 255 at 160; transparent black to 255 0 0 at 64; 55, 13 and 4, which 128, 64
/// and 32 are in linear light, to 28, from 27.5, to 7, from 6.5, and to themselves.
#[test]
fn curves() {
    let one = "curve 0 0 1 1 src linear -1 1 identity discrete 1 1 linear 2 0\n";
    assert_eq!(last_layer(1, 1, one, &[40, 20, 0, 80]), [80, 40, 160, 160]);
    let clear = "curve 0 0 1 1 src table 2 1 0 identity identity discrete 2 0.25 0\n";
    assert_eq!(last_layer(1, 1, clear, &[0; 4]), [64, 0, 0, 64]);
    let row = alphas(&[0, 64, 127, 128, 255]);
    let table = "curve 0 0 5 1 src identity identity identity table 3 0 1 0.5\n";
    assert_eq!(last_layer(5, 1, table, &row), alphas(&[0, 128, 254, 255, 128]));
    let half = "curve\t0\t0\t1\t1\tsrc\tlinear\t0.5\t0\tlinear\t0.5\t0\tidentity\tidentity";
    for (space, layer) in [("", [28, 7, 4, 255]), ("\tlinear", [28, 7, 4, 255]), ("\tsrgb", [64, 32, 32, 255])] {
        let (mut layers, mut scratch) = ([0; 4], [0; 8]);
        let steps = format!("{half}{space}\n");
        assert_eq!(render(1, 1, steps, &[128, 64, 32, 255], &mut layers, &mut scratch), Ok(()));
        assert_eq!(layers, layer, "{space}");
    }
}

#[test]
fn refused_curves() {
    let refused = |maps: &str| rendered(1, 1, &format!("curve 0 0 1 1 src {maps}\n"), &[0; 4]).expect_err("refused");
    assert_eq!(refused("table 2 0 -0.0001 identity identity identity"), Refusal::Negative(0));
    assert_eq!(refused("discrete 2 1 1.0001 identity identity identity"), Refusal::OutOfRange(0));
    assert_eq!(refused("identity identity identity linear x7fc00000 0"), Refusal::NotFinite(0));
    let many = |count: usize| format!("table {count}{} identity identity identity", " 1".repeat(count));
    let three = "identity identity identity";
    for wrong in [many(0), many(17), three.into(), format!("{three} linear"), format!("gamma {three}")] {
        assert_eq!(refused(&wrong), Refusal::Line(1), "{wrong}");
    }
    assert!(rendered(1, 1, &format!("curve 0 0 1 1 src {}\n", many(16)), &[0; 4]).is_ok());
}

/// A kernel 1 0 0 takes the pixel after the target's: turned half round it is 0 0 1. Each pixel less the next: 96 48 −32 at 32,
/// lowered to alpha; straight 170 85 −106 at 128; with a quarter of the own alpha as the bias 202 117 −74.
#[test]
fn convolutions() {
    let row = alphas(&[10, 20, 30, 40]);
    let moved = |target: &str, edge: &str| {
        last_layer(4, 1, &format!("conv 0 0 4 1 src 3 1 1 0 0  0 {target} 0 false {edge}\n"), &row)
    };
    assert_eq!(moved("1", "none"), alphas(&[20, 30, 40, 0]));
    assert_eq!(moved("0", "none"), alphas(&[30, 40, 0, 0]));
    assert_eq!(moved("0", "wrap"), alphas(&[30, 40, 10, 20]));
    assert_eq!(moved("0", "duplicate"), alphas(&[30, 40, 40, 40]));
    let two = [0x80, 0x40, 0x20, 0x80, 0x20, 0x10, 0x40, 0x60];
    let less = |rest: &str| last_layer(2, 1, &format!("conv 0 0 2 1 src 2 1 -1 1  {rest} none\n"), &two);
    assert_eq!(less("0 0 0 false"), [0x20, 0x20, 0, 0x20, 0x20, 0x10, 0x40, 0x60]);
    assert_eq!(less("0 0 0 true"), [0x55, 0x2b, 0, 0x80, 0x20, 0x10, 0x40, 0x60]);
    assert_eq!(less("0.25 0 0 true"), [0x65, 0x3b, 0, 0x80, 0x29, 0x19, 0x49, 0x60]);
    let halves = |kernel: &str| {
        last_layer(4, 1, &format!("conv 0 0 4 1 src {kernel} 0 0 0 false none\n"), &alphas(&[1, 3, 5, 255]))
    };
    assert_eq!(halves("1 1 1 2"), alphas(&[1, 2, 3, 128]));
    assert_eq!(halves("1 1 -1 -2"), alphas(&[1, 2, 3, 128]));
}

/// With none the rectangle grows by what the kernel has behind its target, to the left, and before it, to the right; with wrap
/// it is the whole canvas.
#[test]
fn redrawn_convolutions() {
    for (target, edge, count) in
        [("0", "none", 4), ("4", "none", 5), ("2", "none", 5), ("2", "wrap", 8), ("0", "duplicate", 8)]
    {
        let steps = format!("conv 0 0 8 1 src 5 1 1 2 3 4 5  0 {target} 0 false {edge}\n");
        let old = alphas(&[9, 0, 0, 200, 0, 0, 30, 0]);
        let mut new = old.clone();
        new[15] = 255;
        let mut workspace = rendered(8, 1, &steps, &old).expect("accepted");
        let rect = Rect { x: 3, y: 0, width: 1, height: 1 };
        let worked = redraw(8, 1, lines(&steps), rect, &new, &mut workspace, &mut vec![1; scratch_len(8, 1)]);
        assert_eq!(worked, Ok(count), "{target} {edge}");
        assert_eq!(workspace, rendered(8, 1, &steps, &new).expect("accepted"));
    }
}

#[test]
fn refused_convolutions() {
    let refused = |rest: &str| rendered(1, 1, &format!("conv 0 0 1 1 src {rest}\n"), &[0; 4]).expect_err("refused");
    assert_eq!(refused("1 1 x7fc00000 0 0 1 0 false none"), Refusal::Kernel(0));
    assert_eq!(refused("1 1 x7fc00000 0 0 0 0 false none"), Refusal::NotFinite(0));
    assert_eq!(refused("1 1 1 0 256.0001 0 0 false none"), Refusal::OutOfRange(0));
    assert_eq!(refused("1 1 1 x37000000 0 0 0 false none"), Refusal::Kernel(0));
    let many = |order: usize| format!("{order} 1{}  0 0 0 false none", " 1".repeat(order));
    for wrong in [
        many(0),
        many(6),
        "1 1 1  0 0 0 yes none".into(),
        "1 1 1  0 0 0 true mirror".into(),
        "1 1 1 1  0 0 true wrap".into(),
    ] {
        assert_eq!(refused(&wrong), Refusal::Line(1), "{wrong}");
    }
    assert!(rendered(1, 1, &format!("conv 0 0 1 1 src {}\n", many(5)), &[0; 4]).is_ok());
}

/// 64 steps on a row of four pixels: the alpha, then moved right and left in turn.
fn long_steps(count: usize) -> String {
    let moved = |n: usize| format!("offset 0 0 4 1 {} {} 0\n", n - 1, [-1, 1][n % 2]);
    let rest: String = (1..count).map(moved).collect();
    format!("offset 0 0 4 1 src 0 0\n{rest}")
}

#[test]
fn sixty_four_steps() {
    let source = alphas(&[10, 20, 30, 40]);
    assert_eq!(workspace_len(4, 1, 64), 1_024);
    assert_eq!(workspace_len(16, 16, 64), 65_536);
    assert_eq!(workspace_len(1_024, 1_024, 64), 256 << 20);
    let steps = long_steps(64);
    let workspace = rendered(4, 1, &steps, &source).expect("accepted");
    assert_eq!(layer(4, 1, 64, 16, &workspace), Some(&alphas(&[10, 20, 30, 0])[..]));
    assert_eq!(layer(4, 1, 64, 63, &workspace), Some(&alphas(&[0, 10, 20, 30])[..]));
    assert_eq!(layer(4, 1, 64, 64, &workspace), None);
    let mut layers = workspace.clone();
    let rect = Rect { x: 1, y: 0, width: 1, height: 1 };
    assert_eq!(redraw(4, 1, lines(&steps), rect, &source, &mut layers, &mut [0; 32]), Ok(64));
    assert_eq!(layers, workspace);
}

#[test]
fn sixty_four_steps_as_text() {
    let row = "row\t0000000a\t00000014\t0000001e\t00000028\n";
    let text = |count: usize| format!("canvas\t4\t1\n{}{row}", lines(&long_steps(count)));
    assert_eq!(sheet(text(64).as_bytes()), b"ok\nrow\t00000000\t0000000a\t00000014\t0000001e\n");
    assert_eq!(sheet(text(17).as_bytes()), b"ok\nrow\t0000000a\t00000014\t0000001e\t00000000\n");
    assert_eq!(sheet(text(65).as_bytes()), b"refused\t15\t66\n");
}

#[test]
fn a_sixty_fifth_line() {
    let source = alphas(&[10, 20, 30, 40]);
    assert_eq!(rendered(4, 1, &long_steps(65), &source), Err(Refusal::Line(65)));
    let mut layers = vec![0; workspace_len(4, 1, 16)];
    let refused = render(4, 1, lines(&long_steps(17)), &source, &mut layers, &mut [0; 32]);
    assert_eq!(refused, Err(Refusal::Workspace));
}
