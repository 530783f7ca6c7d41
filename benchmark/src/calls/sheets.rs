//! The sheets that are measured, for a canvas of any size from 64 × 64 on.

pub struct Sheet {
    pub name: String,
    /// Step lines.
    pub steps: String,
    /// Whether a redraw is measured too.
    pub redrawn: bool,
}

/// Each step is its kind, `@` for the whole canvas, and inputs and numbers, with spaces for tabs. All steps work in sRGB.
fn sheet(side: usize, name: &str, redrawn: bool, steps: &[&str]) -> Sheet {
    let whole = format!("0\t0\t{side}\t{side}");
    let line = |step: &&str| step.replace('@', &whole).replace(' ', "\t") + SRGB;
    Sheet { name: name.into(), steps: steps.iter().map(line).collect(), redrawn }
}

const SRGB: &str = "\tsrgb\n";

/// The same steps in linear light, which is what a line without a space means.
fn linear(sheet: &Sheet) -> Sheet {
    Sheet { name: format!("linear {}", sheet.name), steps: sheet.steps.replace(SRGB, "\n"), redrawn: sheet.redrawn }
}

/// What is also measured in linear light, beside itself in sRGB. They read the source, which is converted.
const LINEAR: [&str; 8] = ["offset", "blur 1.5", "curve", "over", "merge of 4", "conv sharpen", "shadow sheet", "glow sheet"];

/// A sepia that also thins out: none of its numbers is 0.
const MATRIX: &str = "matrix @ src 0.393 0.769 0.189 0.01 0.02 0.349 0.686 0.168 0.01 0.01 0.272 0.534 0.131 0.01 -0.02 \
                      0.05 0.05 0.05 0.8 0.01";

/// A map for each channel, of every kind but identity.
pub const MAPS: &str = "table 5 0 0.15 0.5 0.85 1 discrete 6 0 0.2 0.4 0.6 0.8 1 linear 1.2 -0.1 table 3 0 0.6 1";

/// What sharpens, with values and divisor small and whole.
pub const SHARPEN: &str = "3 3 0 -1 0 -1 5 -1 0 -1 0  0 1 1 true duplicate";

/// A soft one of nine values, and one of 25.
pub const SOFT_3: &str = "3 3 1 2 1 2 4 2 1 2 1  0 1 1 false none";
pub const SOFT_5: &str = "5 5 1 4 6 4 1 4 16 24 16 4 6 24 36 24 6 4 16 24 16 4 1 4 6 4 1  0 2 2 false none";

/// Fractions, a divisor below zero and a bias: nothing is small.
pub const GENERAL: &str = "3 3 -0.3333 1.5 -2.25 -0.0001 -4 0.125 -1.0627 -0.5 2 -6.6667 0.1999 1 1 false none";

/// A relief, with half of the alpha as its ground.
pub const RELIEF: &str = "3 3 -2 -1 0 -1 0 1 0 1 2  0.5 1 1 false wrap";

/// A drop shadow: the alpha blurred and moved, tinted, under the picture.
const SHADOW: [&str; 5] = ["blur @ alpha 6 4.5", "offset @ 0 12 8", "flood @ 16 16 64 0.6", "in @ 2 1", "merge @ 3 src"];

/// A glow: the alpha widened and blurred, tinted and made stronger, under the picture. The blur has a region of its own.
fn glow(side: usize) -> [String; 6] {
    let inner = side - 16;
    [
        "dilate @ alpha 3 2".into(),
        format!("blur 8 8 {inner} {inner} 0 9.3 9.3"),
        "flood @ 255 220 64 0.9".into(),
        "in @ 2 1".into(),
        "arith @ 3 src 0 0.75 0.25 0.01".into(),
        "over @ src 4".into(),
    ]
}

/// The sheets in the order of the tables. Shadow and glow are those of the second program's `sums`.
pub fn all(side: usize) -> Vec<Sheet> {
    let one = |name: &str, redrawn: bool, step: &str| sheet(side, name, redrawn, &[step]);
    let mut sheets = vec![
        one("flood", true, "flood @ 16 32 64 0.5"),
        one("offset", true, "offset @ src 37 -21"),
        one("blur 1.5", true, "blur @ src 1.5 1.5"),
        one("blur 32", true, "blur @ src 32 32"),
    ];
    for kind in ["erode", "dilate"] {
        for radius in [1, 8, 64] {
            let step = format!("{kind} @ src {radius} {radius}");
            sheets.push(one(&format!("{kind} {radius}"), kind == "dilate" && radius == 8, &step));
        }
    }
    sheets.push(one("matrix", true, MATRIX));
    sheets.push(one("saturate", false, "saturate @ src 0.5"));
    sheets.push(one("luminance to alpha", false, "lumalpha @ src"));
    sheets.push(one("curve", true, &format!("curve @ src {MAPS}")));
    for kind in ["over", "in", "out", "atop", "xor"] {
        sheets.push(one(kind, kind == "over", &format!("{kind} @ src alpha")));
    }
    sheets.push(one("arithmetic", true, "arith @ src alpha 0.2 0.6 0.3 0.01"));
    sheets.push(one("merge of 2", false, "merge @ alpha src"));
    sheets.push(one("merge of 4", true, "merge @ alpha src alpha src"));
    for (name, kernel) in [("3x3", SOFT_3), ("5x5", SOFT_5), ("3x3 general", GENERAL), ("sharpen", SHARPEN), ("relief", RELIEF)] {
        sheets.push(one(&format!("conv {name}"), true, &format!("conv @ src {kernel}")));
    }
    sheets.push(sheet(side, "shadow sheet", true, &SHADOW));
    let glow = glow(side);
    sheets.push(sheet(side, "glow sheet", true, &glow.each_ref().map(String::as_str)));
    let light: Vec<Sheet> = sheets.iter().filter(|sheet| LINEAR.contains(&sheet.name.as_str())).map(linear).collect();
    sheets.extend(light);
    sheets
}
