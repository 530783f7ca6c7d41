//! Calls of convolution whose lines are worked out by hand. The lines: tests/calls.expected.

use super::calls::Entry;
use super::listed::{line, second, spaced};

/// The picture of document 002, 5 by 5, as alphas.
const PICTURE: [u8; 25] = [
    0, 20, 40, 235, 235, 100, 120, 140, 235, 235, 200, 220, 240, 235, 235, 225, 225, 255, 255, 255, 225, 225, 255, 255,
    255,
];

const SHADES: [u8; 4] = [10, 20, 30, 40];

/// A row of alphas: orders, values, divisor, bias, target, choices. An absent divisor is two spaces.
fn row(name: &str, alphas: &[u8], kernel: &str, rect: [usize; 4]) -> Entry {
    line(name, alphas.len(), alphas, &format!("conv 0 0 {} 1 src {kernel}", alphas.len()), rect)
}

fn alphas() -> Vec<Entry> {
    let values = "1 2 3 4 5 6 7 8 9";
    vec![
        // 9·0 + 8·20 + 7·40 + 6·100 + 5·120 + 4·140 + 3·200 + 2·220 + 1·240 = 3,480, and 3,480/45 = 77.33.
        line("conv 002", 5, &PICTURE, &format!("conv 1 1 1 1 src 3 3 {values}  0 1 1 false none"), [2, 2, 1, 1]),
        // The kernel turned is 0 0 1: the place after the target's.
        row("conv turned", &SHADES, "3 1 1 0 0  0 1 0 false none", [1, 0, 1, 1]),
        // And with the target 0 two places after it. The rectangle grows by 2 to the left.
        row("conv target", &SHADES, "3 1 1 0 0  0 0 0 false none", [2, 0, 1, 1]),
        row("conv wrap", &SHADES, "3 1 1 0 0  0 0 0 false wrap", [2, 0, 1, 1]),
        row("conv copied", &SHADES, "3 1 1 0 0  0 0 0 false duplicate", [2, 0, 1, 1]),
        // Turned 1 0 0, the target 2: two places before it, and the rectangle grows by 2 downwards.
        line("conv down", 1, &SHADES, "conv 0 0 1 4 src 1 3 0 0 1  0 0 2 false none", [0, 1, 1, 1]),
        // Twice round: (16 + 4 + 1)·10 + (8 + 2)·20 = 410, and 410/4 = 102.5; (16 + 4 + 1)·20 + (8 + 2)·10 = 520.
        row("conv round", &[10, 20], "5 1 1 2 4 8 16 4 0 0 0 false wrap", [0, 0, 1, 1]),
        row("conv ties", &[1, 3, 5, 255], "1 1 1 2 0 0 0 false none", [0, 0, 4, 1]),
        row("conv minus", &[1, 3, 5, 255], "1 1 -1 -2 0 0 0 false none", [0, 0, 4, 1]),
        // a − a/4: 0.75, 1.5, 4.5, 191.25.
        row("conv less", &[1, 2, 6, 255], "1 1 -1 4 1 0 0 false none", [0, 0, 4, 1]),
        // A kernel without a sum is divided by 1; half of the place's own alpha is left: 100.5 for 201.
        row("conv bias", &[0, 100, 201], "3 1 0 0 0  0.5 1 0 false duplicate", [0, 0, 1, 1]),
        row("conv edge", &SHADES, "3 1 -1 0 1  0 1 0 false none", [1, 0, 1, 1]),
        // 25 times 256·255 by 256, less 24·255.
        row("conv 256", &[255], &format!("5 5{} 256 -24 2 2 false duplicate", " 256".repeat(25)), [0, 0, 1, 1]),
        // The edge is the canvas's, not the region's.
        line("conv cut", 4, &SHADES, "conv 1 0 2 1 src 3 1 1 0 0  0 1 0 false duplicate", [0, 0, 1, 1]),
        row("conv no rect", &SHADES, "3 1 1 0 0  0 1 0 false wrap", [1, 0, 0, 1]),
    ]
}

/// 80402080 is 255 128 64 straight, 20104060 is 85 43 170.
const TWO: [u32; 2] = [0x80402080, 0x20104060];

fn pixels() -> Vec<Entry> {
    let on = |name: &str, rest: &str| spaced(name, &TWO, &format!("conv 0 0 2 1 src 2 1 -1 1  {rest} srgb\n"));
    vec![
        // Each place less the next: 96 48 −32 at 32, lowered to 32; the last place stays.
        on("conv lowered", "0 0 0 false none"),
        // Straight 170 85 −106, at 128; the last place stays.
        on("conv kept", "0 0 0 true none"),
        // A quarter of the own alpha more, 32 and 24: 202 117 −74 at 128; 109 67 194 at 96.
        on("conv kept b", "0.25 0 0 true none"),
        // The same without preserve-alpha: 96 + 32, 48 + 32, −32 + 32 at 32 + 32; 32 + 24, 16 + 24, 64 + 24 at 96 + 24.
        on("conv free b", "0.25 0 0 false none"),
        // 128 64 32 is 55 13 4 in linear light; twice that, or twice the bytes.
        spaced("linear conv", &[0x804020ff], "conv 0 0 1 1 src 1 1 2 1 0 0 0 false none\n"),
        spaced("srgb conv", &[0x804020ff], "conv 0 0 1 1 src 1 1 2 1 0 0 0 false none srgb\n"),
    ]
}

/// Refusals at step 1, and lines that are not of the form.
fn refused() -> Vec<Entry> {
    let one = |name: &str, place: &str, rest: &str| second(name, &format!("conv {place} {rest}"));
    let on = |name: &str, rest: &str| one(name, "0 0 2 2 0", rest);
    vec![
        one("7 conv", "0 0 2 2 1", "1 1 1 0 x7fc00000 9 9 true wrap"),
        on("17 across", "3 1 x7fc00000 999 0 0 0 3 0 false none"),
        on("17 down", "3 1 1 1 1 1 0 0 1 false none"),
        on("8 value", "1 1 x7fc00000 0 0 0 0 false none"),
        on("10 value", "2 1 1 -256.0001  x7fc00000 0 0 false none"),
        on("10 bias", "1 1 1 0 256.0001 0 0 false none"),
        one("17 divisor", "0 1 2 2 0", "1 1 1 0 0 0 0 false none"),
        on("17 half unit", "1 1 1 x37000000 0 0 0 false none"),
        on("one unit", "1 1 1 x37000001 0 0 0 false none"),
        one("13 conv", "0 1 2 2 0", "1 1 1  0 0 0 false none"),
        on("15 order 0", "0 1  0 0 0 false none"),
        on("15 order 6", "1 6 1 1 1 1 1 1  0 9 9 false none"),
        on("15 values", "2 2 1 1 1  0 0 0 false none"),
        on("15 no bias", "1 1 1 1  0 0 false none"),
        on("15 True", "1 1 1 1 0 0 0 True none"),
        on("15 mirror", "1 1 1 1 0 0 0 true mirror"),
    ]
}

pub fn convolutions() -> Vec<Entry> {
    [alphas(), pixels(), refused()].into_iter().flatten().collect()
}
