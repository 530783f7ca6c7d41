//! Calls of component transfer whose lines are worked out by hand. The lines: tests/calls.expected.

use super::calls::Entry;
use super::listed::{line, pixel, second, spaced};

/// A row of alphas through a curve for alpha.
fn alphas(name: &str, alphas: &[u8], curve: &str, rect: [usize; 4]) -> Entry {
    let step = format!("curve 0 0 {} 1 src identity identity identity {curve}", alphas.len());
    line(name, alphas.len(), alphas, &step, rect)
}

/// 0 for the lower entries of 16, 1 for the upper ones.
const SIXTEEN: &str = "0 0 0 0 0 0 0 0 1 1 1 1 1 1 1 1";

fn drawn() -> Vec<Entry> {
    let half = "linear 0.5 0";
    vec![
        // Straight 128 64 0 at 80 become 127 64 255; the alpha 160. (127·160 + 127) ÷ 255 = 80, (64·160 + 127) ÷ 255 = 40.
        pixel("curve pixel", 0x28140050, "curve 0 0 1 1 src linear -1 1 identity discrete 1 1 linear 2 0\n", &[9]),
        // Transparent black: its straight red 0 becomes 255, its alpha 63.75; 64 of 255 at 64.
        spaced(
            "curve clear",
            &[0, 0xff8000ff],
            "curve 0 0 2 1 src table 2 1 0 identity identity discrete 2 0.25 0 srgb\n",
        ),
        // Two parts. 64·2 = 128: 255·128/255; 127·2 = 254: 254; 128·2 = 256: 1/255 past 1, 254.5; 255: the last, 127.5.
        alphas("curve table", &[0, 64, 127, 128, 255], "table 3 0 1 0.5", [1, 0, 3, 1]),
        // Three parts: they begin at 85 and at 170.
        alphas("curve steps", &[84, 85, 169, 170, 255], "discrete 3 0 1 0.5", [0, 0, 5, 1]),
        alphas("curve one", &[0, 9, 255], "table 1 0.5", [0, 0, 3, 1]),
        // 15 parts of 17 bytes: from 119 to 136 the eighth, 15 a byte.
        alphas("curve 16", &[119, 120, 127, 135, 136], &format!("table 16 {SIXTEEN}"), [0, 0, 5, 1]),
        // 16 parts of 15.9375 bytes: the ninth begins at 127.5.
        alphas("curve 16 of", &[127, 128, 255], &format!("discrete 16 {SIXTEEN}"), [0, 0, 3, 1]),
        // 65,280 less 256 a byte: 256 at 254, 0 at 255.
        alphas("curve 256", &[0, 1, 254, 255], "linear -256 256", [0, 0, 4, 1]),
        // 127.5 less a half a byte: halves go up.
        alphas("curve ties", &[0, 1, 2, 254, 255], "linear -0.5 0.5", [0, 0, 5, 1]),
        line("curve cut", 4, &[0; 4], "curve 1 0 2 1 src identity identity identity discrete 1 1", [0, 0, 2, 1]),
        // 128 64 32 is 55 13 4 in linear light; half of 55 and of 13, upwards, is 28 and 7.
        spaced("linear curve", &[0x804020ff], &format!("curve 0 0 1 1 src {half} {half} identity identity\n")),
        spaced("srgb curve", &[0x804020ff], &format!("curve 0 0 1 1 src {half} {half} identity identity srgb\n")),
    ]
}

/// Refusals at step 1, and lines that are not of the form.
fn refused() -> Vec<Entry> {
    let red =
        |name: &str, place: &str, red: &str| second(name, &format!("curve {place} {red} identity identity identity"));
    vec![
        red("7 curve", "0 0 2 2 1", "table 2 -1 2"),
        red("8 slope", "0 0 2 2 0", "linear x7fc00000 999"),
        red("9 entry", "0 0 2 2 0", "table 2 0 -0.0001"),
        red("10 entry", "0 0 2 2 0", "discrete 2 1 1.0001"),
        red("10 slope", "0 0 2 2 0", "linear 256.0001 x7fc00000"),
        red("13 curve", "0 1 2 2 0", "linear 256 -256"),
        red("15 no entry", "0 0 2 2 1", "table 0"),
        red("15 entries", "0 0 2 2 1", &format!("discrete 17 {SIXTEEN} 1")),
        second("15 channels", "curve 0 0 2 2 0 identity identity identity"),
        second("15 linear", "curve 0 0 2 2 0 identity identity identity linear"),
    ]
}

pub fn curves() -> Vec<Entry> {
    [drawn(), refused()].into_iter().flatten().collect()
}
