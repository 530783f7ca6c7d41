//! Sheets of SVG filter steps drawn into buffers that the caller lends, by a library whose every function is proved to
//! meet its contract.
//!
//! A picture of `width` by `height` pixels (1 to 1,024 each) is a slice of [`picture_len`] bytes: rows from top to bottom,
//! four bytes R, G, B, A a pixel, premultiplied, so that no colour exceeds its alpha. A sheet has 1 to 64 steps, numbered
//! from 0; step n draws layer n, and the workspace holds the layers one after another ([`workspace_len`]).
//!
//! Steps are lines of text, each closed by a line feed, their fields parted by one tab: kind, x, y, width and height of
//! the step's region, inputs (`src`, `alpha`, or the number of an earlier step), numbers, and optionally the space that the
//! step works in, `srgb` or `linear`. Without it a step works in linear light.
//!
//! ```
//! // A half transparent red on the left pixel, the source under it.
//! let steps = "flood\t0\t0\t1\t1\t255\t0\t0\t0.5\tsrgb\nover\t0\t0\t2\t1\t0\tsrc\tsrgb\n";
//! let (width, height) = (2, 1);
//! let source = [0x00, 0x00, 0xff, 0xff, 0x00, 0x00, 0x00, 0x80];
//! let mut workspace = vec![0; twillgoose::workspace_len(width, height, 2)];
//! let mut scratch = vec![0; twillgoose::scratch_len(width, height)];
//! twillgoose::render(width, height, steps, &source, &mut workspace, &mut scratch)?;
//! let last = twillgoose::layer(width, height, 2, 1, &workspace);
//! assert_eq!(last, Some(&[0x80, 0x00, 0x7f, 0xff, 0x00, 0x00, 0x00, 0x80][..]));
//! # Ok::<(), twillgoose::Refusal>(())
//! ```
//!
//! | Kind | Inputs and numbers | Allowed |
//! |---|---|---|
//! | `flood` | R, G, B, opacity | bytes; 0 to 1 |
//! | `offset` | input, dx, dy | −1,024 to 1,024, whole |
//! | `blur` | input, sx, sy | 0 to 32 |
//! | `erode`, `dilate` | input, rx, ry | 0 to 64, whole |
//! | `matrix` | input, 20 numbers, four rows of five | −256 to 256 |
//! | `saturate` | input, s | 0 to 1 |
//! | `lumalpha` | input | |
//! | `curve` | input, then for R, G, B and A one of `identity`; `table`, n, n entries; `discrete`, n, n entries; `linear`, slope, intercept | n of 1 to 16; entries 0 to 1; −256 to 256 |
//! | `over`, `in`, `out`, `atop`, `xor` | top, bottom | |
//! | `arith` | input, input, k1 to k4 | −256 to 256 |
//! | `merge` | 1 to 4 inputs, bottom first | |
//! | `conv` | input, order across, order down, the kernel's values by rows, divisor or an empty field, bias, target across, target down, `true` or `false`, `duplicate`, `wrap` or `none` | orders 1 to 5; −256 to 256; the target inside the kernel |
//!
//! The source is sRGB. Each layer is kept in its step's space, and its bytes in the workspace are in it: a step of the
//! other space reads them converted, and so must whoever shows them. With `srgb` on every step nothing is converted;
//! [`sheet`] prints sRGB in any case.
//!
//! ```
//! // 128, 64 and 32 are 55, 13 and 4 in linear light.
//! let (mut workspace, mut scratch) = ([0; 4], [0; 8]);
//! twillgoose::render(1, 1, "offset\t0\t0\t1\t1\tsrc\t0\t0\n", &[128, 64, 32, 255], &mut workspace, &mut scratch)?;
//! assert_eq!(workspace, [55, 13, 4, 255]);
//! # Ok::<(), twillgoose::Refusal>(())
//! ```
//!
//! A curve maps each channel of the unpremultiplied pixel, alpha included, and premultiplies by the new alpha. Its space
//! stands after the fourth transfer; its own `linear` is never taken for it.
//!
//! ```
//! // Colours turned round, alpha halved: 255, 128 and 0 become 0, 127 and 255 at 128.
//! let step = "curve\t0\t0\t1\t1\tsrc\ttable\t2\t1\t0\ttable\t2\t1\t0\ttable\t2\t1\t0\tlinear\t0.5\t0\tsrgb\n";
//! let (mut workspace, mut scratch) = ([0; 4], [0; 8]);
//! twillgoose::render(1, 1, step, &[255, 128, 0, 255], &mut workspace, &mut scratch)?;
//! assert_eq!(workspace, [0, 64, 128, 128]);
//! # Ok::<(), twillgoose::Refusal>(())
//! ```
//!
//! A convolution turns its kernel half round and lays it over each pixel, so that the target's column and row come to lie on
//! it. It divides the sum by the divisor (where that field is empty by the sum of the values, or by 1 where that is 0) and adds
//! the bias times the pixel's own alpha. With `true` it works on unpremultiplied colours and keeps alpha. The edge mode says
//! what is read beyond the canvas.
//!
//! ```
//! // Each pixel sharpened against those beside it: 3 times 100 less 100 and 120, and so on.
//! let step = "conv\t0\t0\t3\t1\tsrc\t3\t1\t-1\t3\t-1\t\t0\t1\t0\tfalse\tduplicate\tsrgb\n";
//! let (mut workspace, mut scratch) = ([0; 12], [0; 24]);
//! twillgoose::render(3, 1, step, &[0, 0, 0, 100, 0, 0, 0, 120, 0, 0, 0, 140], &mut workspace, &mut scratch)?;
//! assert_eq!(workspace, [0, 0, 0, 80, 0, 0, 0, 120, 0, 0, 0, 160]);
//! # Ok::<(), twillgoose::Refusal>(())
//! ```
//!
//! Whole fields (the region, a step's number, a flood's bytes, n, orders, targets) have 1 to 4 digits, no sign and no
//! leading zeros. A number is an optional minus, 1 to 5 digits without leading zeros, optionally a point and 1 to 4
//! digits; or `x` and the eight lower-case hexadecimal digits of a single. It is checked as it stands, then rounded to
//! the nearest 1/65,536. A single halfway between two goes to the even one; no decimal lies there. A [`Refusal`] says
//! what is wrong with a call, and changes no byte that was lent. A sixty-fifth step line, a merge of 0 or 5 inputs, an n
//! of 0 or above 16, an order of 0 or above 5 and another word for a transfer, for a convolution's choices or for the
//! space are not of the form: they are refused as lines. Refusals 16, of a step record with a table of 0 or more than 16
//! entries, and 21, of readers of lists of step records, cannot be met here: steps are lines.

#![warn(missing_docs)]

mod raw;
mod refusal;

pub use refusal::Refusal;

/// A part of the canvas in whole pixels.
#[derive(Clone, Copy, PartialEq, Eq, Debug, Default)]
pub struct Rect {
    /// The first column.
    pub x: usize,
    /// The first row.
    pub y: usize,
    /// How many columns; 0 is an empty rectangle.
    pub width: usize,
    /// How many rows; 0 is an empty rectangle.
    pub height: usize,
}

/// The bytes of a picture. Sizes that no call accepts may give any length.
pub fn picture_len(width: usize, height: usize) -> usize {
    width.saturating_mul(height).saturating_mul(4)
}

/// The bytes of a workspace for so many steps.
pub fn workspace_len(width: usize, height: usize, steps: usize) -> usize {
    picture_len(width, height).saturating_mul(steps)
}

/// The bytes of a scratch buffer.
pub fn scratch_len(width: usize, height: usize) -> usize {
    picture_len(width, height).saturating_mul(2)
}

/// Draws every layer of the steps on the picture in `source`.
///
/// Done, `workspace` holds the layers, each a valid picture in its step's space, and `scratch` is all zero. Refused, both
/// are as they were.
///
/// # Errors
///
/// The first thing that is wrong, in the order of checking: any [`Refusal`] but `Rectangle`.
pub fn render(
    width: usize,
    height: usize,
    steps: impl AsRef<[u8]>,
    source: &[u8],
    workspace: &mut [u8],
    scratch: &mut [u8],
) -> Result<(), Refusal> {
    let (number, place) = raw::render(width, height, steps.as_ref(), source, workspace, scratch);
    refusal::refused(number, place).map_or(Ok(()), Err)
}

/// Brings the layers in `workspace` up to date with `source`, which has changed inside `rect` only. Returns how many
/// pixels were worked.
///
/// Done, a `workspace` that held the layers of a picture that differs from `source` inside `rect` only holds those of
/// `source`, as [`render`] draws them; whatever it held, no pixel outside the part that the steps derive from `rect` is
/// altered; `scratch` is all zero. Refused, both are as they were.
///
/// ```
/// use twillgoose::{redraw, render, Rect};
/// let steps = "dilate\t0\t0\t3\t1\tsrc\t1\t0\tsrgb\n";
/// let (mut source, mut workspace, mut scratch) = ([0; 12], [0; 12], [0; 24]);
/// render(3, 1, steps, &source, &mut workspace, &mut scratch)?;
/// source[7] = 255; // the middle pixel's alpha
/// let rect = Rect { x: 1, y: 0, width: 1, height: 1 };
/// assert_eq!(redraw(3, 1, steps, rect, &source, &mut workspace, &mut scratch)?, 3);
/// assert_eq!(workspace, [0, 0, 0, 255, 0, 0, 0, 255, 0, 0, 0, 255]);
/// # Ok::<(), twillgoose::Refusal>(())
/// ```
///
/// # Errors
///
/// The first thing that is wrong, in the order of checking: any [`Refusal`].
pub fn redraw(
    width: usize,
    height: usize,
    steps: impl AsRef<[u8]>,
    rect: Rect,
    source: &[u8],
    workspace: &mut [u8],
    scratch: &mut [u8],
) -> Result<u64, Refusal> {
    let (number, place, count) = raw::redraw(width, height, steps.as_ref(), rect, source, workspace, scratch);
    refusal::refused(number, place).map_or(Ok(count), Err)
}

/// The bytes of layer `n`, in the space of step `n`, in a workspace of `steps` layers; nothing where the sizes are not
/// valid or there is no such layer.
pub fn layer(width: usize, height: usize, steps: usize, n: usize, workspace: &[u8]) -> Option<&[u8]> {
    let (offset, length) = raw::layer(width, height, steps, n, workspace.len());
    workspace.get(offset..)?.get(..length).filter(|layer| !layer.is_empty())
}

/// The rules that this page describes. The number rises whenever an answer or a pixel changes: compare pictures only if
/// both were drawn under the same number.
pub const RULES: u64 = 7;

/// The number of the rules that the library was built with, [`RULES`] where page and library belong together.
pub fn rules() -> u64 {
    raw::rules()
}

/// The longest answer of [`sheet`]: 16 rows of 16 pixels.
pub const LONGEST_ANSWER: usize = 3 + 16 * (4 + 16 * 9);

/// Answers a whole sheet as text (a `canvas` line, step lines, rows of pixels), as the program `sheet` does: `ok` and the
/// last layer as `row` lines, in sRGB whatever its step's space, or one line of `refused`, number and place. A text over
/// 65,536 bytes is refused with 15 at place 0.
///
/// ```
/// let text = b"canvas\t1\t1\nlumalpha\t0\t0\t1\t1\tsrc\nrow\tffffffff\n";
/// assert_eq!(twillgoose::sheet(text), b"ok\nrow\t000000ff\n");
/// assert_eq!(twillgoose::sheet(b"canvas\t1\t1\n"), b"refused\t15\t2\n");
/// ```
pub fn sheet(text: &[u8]) -> Vec<u8> {
    let mut out = vec![0; LONGEST_ANSWER];
    let length = raw::sheet(text, &mut out);
    if length > out.len() {
        out.resize(length, 0);
        raw::sheet(text, &mut out);
    }
    out.truncate(length);
    out
}
