//! The second program: the rules of a sheet (docs/RULES.md) once more, written from them alone, straight and naive.
//!
//! It shares nothing with the proved renderer, so that a slip in the definitions, in the compiler or at the boundary to
//! other languages shows as a difference. Quotations in comments are the words of the request
//! that docs/RULES.md restates.
//!
//! - `wide`, `ratio`, `number`: exact values, refusals 8 to 11, units
//! - `pixel`, `space`, `transfer`, `window`, `convolve`, `filter`: the arithmetic of one pixel, working spaces, component
//!   transfer, neighbourhoods, convolution, the work of each kind
//! - `rect`, `damage`: rectangles of a redraw and their count
//! - `step`, `check`, `render`: sheets, the refusal table, the entry points
//! - `line`, `curve_line`, `conv_line`, `text`, `print`: the text form, the reader into a lent list, and what `sheet` prints
//! - `fault`: wrong variants of the rules
//! - `random`, `cases`: seeded sheets, pictures, calls and texts
//! - `compare`, `budget`, `library`, `program`, `sums`: the comparison, its runs, what it is run against

pub mod budget;
pub mod cases;
pub mod check;
pub mod compare;
mod conv_line;
pub mod convolve;
mod curve_line;
pub mod damage;
pub mod fault;
pub mod filter;
#[cfg(feature = "library")]
pub mod library;
pub mod line;
pub mod number;
pub mod picture;
pub mod pixel;
pub mod print;
pub mod program;
pub mod random;
pub mod ratio;
pub mod rect;
pub mod render;
pub mod space;
pub mod step;
pub mod sums;
pub mod text;
pub mod transfer;
pub mod wide;
pub mod window;
