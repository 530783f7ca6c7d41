//! The worked examples of RULES 11: P1 to P12, the cases to run; and the example of 9.9. All are in sRGB.

mod common;

use common::*;
use reference::cases::texts::EXAMPLE;
use reference::check::Answer;
use reference::fault::Fault;
use reference::number::Number;
use reference::pixel::*;
use reference::print;
use reference::window::box_size;

const RIGHT: Fault = Fault::None;

fn pixel(word: u32) -> Pixel {
    word.to_be_bytes()
}

#[test]
fn p1_premultiply() {
    assert_eq!(premultiply(255, 128, RIGHT), 128);
}

#[test]
fn p2_unpremultiply() {
    assert_eq!(unpremultiply(1, 3, RIGHT), 85);
    assert_eq!(premultiply(85, 3, RIGHT), 1);
}

#[test]
fn p3_over() {
    assert_eq!(composite(Operator::Over, pixel(0x8000_0080), pixel(0x0000_ffff), RIGHT), pixel(0x8000_7fff));
    assert_eq!(
        last_layer(1, 1, "flood 0 0 1 1 255 0 0 0.5\nover 0 0 1 1 0 src\n", &pixels("0000ffff")),
        pixels("80007fff")
    );
}

#[test]
fn p4_xor() {
    assert_eq!(composite(Operator::Xor, pixel(0x1020_30ff), pixel(0xffff_ffff), RIGHT), CLEAR);
}

#[test]
fn p5_arithmetic() {
    assert_eq!(arithmetic_channel([0, 32_768, 32_768, 0], 255, 0, RIGHT), 128);
}

#[test]
fn p6_box_sizes() {
    let units = [16_384, 32_768, 65_536, 98_304, 131_072, 2_097_152];
    assert_eq!(units.map(|s| box_size(s, RIGHT)), [0, 1, 2, 3, 4, 60]);
}

#[test]
fn p7_saturate() {
    let m = saturate(0, RIGHT);
    for row in 0..3 {
        assert_eq!(m[5 * row..5 * row + 5], [13_959, 46_858, 4_719, 0, 0]);
    }
    assert_eq!(m[15..], [0, 0, 0, 65_536, 0]);
    let one = saturate(65_536, RIGHT);
    assert_eq!((one[0], one[1], one[5], one[6], one[12]), (65_536, 0, 0, 65_536, 65_536));
}

/// Red's own coefficients lie at 65,142.5 and 106.5 units, green's at 357.5 and 65,393.5: all go up, to odd ones too.
#[test]
fn saturate_rounds_halves_up() {
    let m = saturate(65_036, RIGHT);
    assert_eq!(m[0..3], [65_143, 358, 36]);
    assert_eq!(m[5..8], [107, 65_394, 36]);
    assert_eq!(m[10..13], [107, 358, 65_072]);
    assert_eq!(last_layer(1, 1, "saturate 0 0 1 1 src x3f7e0c00\n", &pixels("ff0099ff")), pixels("fe0198ff"));
}

#[test]
fn p8_luminance() {
    assert_eq!(matrix(&luminance(RIGHT), [255; 4], RIGHT), [0, 0, 0, 255]);
    assert_eq!(last_layer(1, 1, "lumalpha 0 0 1 1 src\n", &[255; 4]), [0, 0, 0, 255]);
}

#[test]
fn p9_blur() {
    let row = alphas(&[0, 0, 255, 0, 0]);
    assert_eq!(last_layer(5, 1, "blur 0 0 5 1 src 1.5 0\n", &row), alphas(&[28, 57, 66, 57, 28]));
    assert_eq!(last_layer(1, 5, "blur 0 0 1 5 src 0 1.5\n", &row), alphas(&[28, 57, 66, 57, 28]));
}

#[test]
fn p10_dilate() {
    let row = alphas(&[0, 255, 0]);
    assert_eq!(last_layer(3, 1, "dilate 0 0 3 1 src 1 0\n", &row), alphas(&[255, 255, 255]));
}

#[test]
fn p11_rectangles() {
    let source = vec![255; 32];
    for (line, x, width) in [("dilate 0 0 8 1 src 1 0\n", 2, 3), ("blur 0 0 8 1 src 1 0\n", 1, 5)] {
        // A workspace that the redraw cannot leave as it is shows where it works.
        let mut workspace = alphas(&[3; 8]);
        assert_eq!(redrawn(8, 1, &steps(line), region(3, 0, 1, 1), &source, &mut workspace), (Answer::DONE, width));
        let worked: Vec<usize> = (0..8).filter(|pixel| workspace[4 * pixel + 3] != 3).collect();
        assert_eq!(worked, (x..x + width as usize).collect::<Vec<_>>());
    }
}

#[test]
fn p12_sign() {
    let source = [0; 4];
    assert_eq!(drawn(1, 1, &steps("blur 0 0 1 1 src -0.0001 0\n"), &source).0, Answer::refused(9, 0));
    assert_eq!(drawn(1, 1, &steps("blur 0 0 1 1 src x80000000 0\n"), &source).0, Answer::DONE);
}

#[test]
fn cases_to_run() {
    let source = [0; 4];
    let answer = |line: &str| drawn(1, 1, &steps(line), &source).0;
    assert_eq!(answer("blur 0 0 1 1 src 32 0\n"), Answer::DONE);
    assert_eq!(answer("blur 0 0 1 1 src x42000000 0\n"), Answer::DONE);
    assert_eq!(answer("blur 0 0 1 1 src x42000001 0\n"), Answer::refused(10, 0));
    assert_eq!(answer("blur 0 0 1 1 src x7fc00000 0\n"), Answer::refused(8, 0));
    assert_eq!(answer("offset 0 0 1 1 src 0.5 0\n"), Answer::refused(11, 0));
    assert_eq!(answer("lumalpha 1 0 1 1 src\n"), Answer::refused(13, 0));
}

#[test]
fn example() {
    assert_eq!(print::sheet(EXAMPLE.as_bytes(), RIGHT), b"ok\nrow\t80007fff\t00000080\n");
}

#[test]
fn merge_is_not_associative() {
    let shown = |a: u8, b: u8, c: u8| {
        let [a, b, c] = [a, b, c].map(|alpha| [0, 0, 0, alpha]);
        let upper = composite(Operator::Over, c, b, RIGHT);
        merge(&[a, b, c], RIGHT) != composite(Operator::Over, upper, a, RIGHT)
    };
    assert!((0..=255).any(|a| (0..=255).any(|b| shown(a, b, 100))));
}

#[test]
fn decimal_text() {
    let cases = [
        (0, 0, "0"),
        (5000, 0, "0.5"),
        (-1, 0, "-0.0001"),
        (-25_000, 2, "-2.50"),
        (999_999_999, 0, "99999.9999"),
        (30_000, 4, "3.0000"),
    ];
    for (number, places, text) in cases {
        assert_eq!(print::number(Number::Decimal(number), places), text);
    }
}
