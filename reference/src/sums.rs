//! Checksums of large renders, for programs that cannot link this one.
//!
//! The source picture: a state of 32 bits begins at the seed; before each byte it becomes
//! (state · 1,664,525 + 1,013,904,223) mod 2^32, and the byte is the state ÷ 2^24. Four bytes in a row are a pixel's
//! R, G, B and A; then each colour is lowered to the alpha where it exceeds it. Pixels come in row order.
//!
//! The edit: the 16 × 16 pixels from (500, 300) become ffffffff, and that rectangle is redrawn.
//!
//! Sums of a layer's bytes in order: `fnv` is FNV-1a with 64 bits; `poly` begins at 0 and becomes
//! (poly · 257 + byte + 1) mod 4,294,967,291 with each byte.

use crate::compare::Renderer;
use crate::step::Region;

pub const SEED: u32 = 2026;

/// A drop shadow: the alpha blurred and moved, tinted, under the picture.
pub const SHADOW: &str = "blur\t0\t0\t1024\t1024\talpha\t6\t4.5\tsrgb
offset\t0\t0\t1024\t1024\t0\t12\t8\tsrgb
flood\t0\t0\t1024\t1024\t16\t16\t64\t0.6\tsrgb
in\t0\t0\t1024\t1024\t2\t1\tsrgb
merge\t0\t0\t1024\t1024\t3\tsrc\tsrgb
";

/// A glow: the alpha widened and blurred, tinted and made stronger, under the picture.
pub const GLOW: &str = "dilate\t0\t0\t1024\t1024\talpha\t3\t2\tsrgb
blur\t8\t8\t1008\t1008\t0\t9.3\t9.3\tsrgb
flood\t0\t0\t1024\t1024\t255\t220\t64\t0.9\tsrgb
in\t0\t0\t1024\t1024\t2\t1\tsrgb
arith\t0\t0\t1024\t1024\t3\tsrc\t0\t0.75\t0.25\t0.01\tsrgb
over\t0\t0\t1024\t1024\tsrc\t4\tsrgb
";

/// A green screen: an alpha from the colours, made steeper by a curve that all channels have a part in, over a flood.
pub const KEY: &str = "matrix\t0\t0\t1024\t1024\tsrc\t1\t0\t0\t0\t0\t0\t1\t0\t0\t0\t0\t0\t1\t0\t0\t1\t-2\t1\t1\t0\tsrgb
curve\t0\t0\t1024\t1024\t0\ttable\t4\t0\t0.3\t0.8\t1\tdiscrete\t5\t0\t0.2\t0.5\t0.7\t1\tidentity\tlinear\t1.5\t-0.25\tsrgb
flood\t0\t0\t1024\t1024\t32\t64\t160\t1\tsrgb
over\t0\t0\t1024\t1024\t1\t2\tsrgb
";

/// A relief: the picture sharpened, its slopes in half of its alpha, and a soft picture of these that goes round the edges.
pub const RELIEF: &str =
    "conv\t0\t0\t1024\t1024\tsrc\t3\t3\t0\t-1\t0\t-1\t5\t-1\t0\t-1\t0\t\t0\t1\t1\ttrue\tduplicate\tsrgb
conv\t8\t8\t1008\t1008\t0\t3\t3\t-2\t-1\t0\t-1\t0\t1\t0\t1\t2\t\t0.5\t1\t1\tfalse\tnone\tsrgb
conv\t0\t0\t1024\t1024\t1\t5\t2\t-1\t-4\t-6\t-4\t-1.25\t-0.5\t-2\t-3\t-2\t-0.5\t-24.5\t-0.1\t4\t0\tfalse\twrap\tsrgb
";

/// The same lines without their spaces: linear is the default.
pub fn in_linear_light(lines: &str) -> String {
    lines.replace("\tsrgb\n", "\n")
}

/// The sheets' canvas.
pub const SIDE: usize = 1024;

/// The rectangle of the edit.
pub const EDIT: Region = Region { x: 500, y: 300, width: 16, height: 16 };

pub fn source(seed: u32, pixels: usize) -> Vec<u8> {
    let mut state = seed;
    let mut byte = || {
        state = state.wrapping_mul(1_664_525).wrapping_add(1_013_904_223);
        (state >> 24) as u8
    };
    let mut bytes = Vec::with_capacity(4 * pixels);
    for _ in 0..pixels {
        let [r, g, b, a] = [byte(), byte(), byte(), byte()];
        bytes.extend([r.min(a), g.min(a), b.min(a), a]);
    }
    bytes
}

/// The source after the edit.
pub fn edited(source: &[u8]) -> Vec<u8> {
    let mut edited = source.to_vec();
    for y in EDIT.y..EDIT.y + EDIT.height {
        let row = 4 * (y * SIDE + EDIT.x);
        edited[row..row + 4 * EDIT.width].fill(255);
    }
    edited
}

pub fn fnv(bytes: &[u8]) -> u64 {
    bytes.iter().fold(0xcbf2_9ce4_8422_2325, |sum: u64, byte| (sum ^ u64::from(*byte)).wrapping_mul(0x100_0000_01b3))
}

pub fn poly(bytes: &[u8]) -> u64 {
    bytes.iter().fold(0, |sum, byte| (sum * 257 + u64::from(*byte) + 1) % 4_294_967_291)
}

fn line(name: &str, bytes: &[u8]) -> String {
    format!("{name}\tfnv {:016x}\tpoly {}\n", fnv(bytes), poly(bytes))
}

/// Layer n of a workspace, where the renderer says that it lies.
fn layer<'a>(renderer: &dyn Renderer, steps: usize, n: usize, workspace: &'a [u8]) -> &'a [u8] {
    let mut offset = u64::MAX;
    let length = renderer.layer(SIDE, SIDE, steps, n, workspace.len(), &mut offset);
    &workspace[offset as usize..(offset + length) as usize]
}

/// The sums of one sheet: every layer after the render, the count and the last layer after the edit's redraw.
fn sheet(renderer: &dyn Renderer, name: &str, lines: &str) -> String {
    let (steps, count) = (lines.as_bytes(), lines.lines().count());
    let size = 4 * SIDE * SIDE;
    let source = source(SEED, SIDE * SIDE);
    let (mut workspace, mut scratch) = (vec![0; size * count], vec![0; 2 * size]);
    let (mut place, mut worked) = (0, 0);
    let number = renderer.render(SIDE, SIDE, steps, &source, &mut workspace, &mut scratch, &mut place);
    let mut said = format!("{name}\tanswer {number}\n");
    for n in 0..count {
        said += &line(&format!("{name} layer {n}"), layer(renderer, count, n, &workspace));
    }
    let edited = edited(&source);
    let number =
        renderer.redraw(SIDE, SIDE, steps, EDIT, &edited, &mut workspace, &mut scratch, &mut place, &mut worked);
    said += &format!("{name} redraw\tanswer {number}\tcount {worked}\n");
    said + &line(&format!("{name} redraw layer {}", count - 1), layer(renderer, count, count - 1, &workspace))
}

/// What `reference sums` prints: the same from every renderer that follows the rules.
pub fn all(renderer: &dyn Renderer) -> String {
    let source = source(SEED, SIDE * SIDE);
    line("source", &source)
        + &line("source edited", &edited(&source))
        + &sheet(renderer, "shadow", SHADOW)
        + &sheet(renderer, "glow", GLOW)
        + &sheet(renderer, "key", KEY)
        + &sheet(renderer, "relief", RELIEF)
        + &sheet(renderer, "linear shadow", &in_linear_light(SHADOW))
        + &sheet(renderer, "linear glow", &in_linear_light(GLOW))
        + &sheet(renderer, "linear key", &in_linear_light(KEY))
        + &sheet(renderer, "linear relief", &in_linear_light(RELIEF))
}
