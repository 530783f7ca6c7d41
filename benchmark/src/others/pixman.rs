//! pixman's Porter-Duff operators.
use super::shared::Shared;
use super::Other;
use std::ffi::{c_int, c_void};
use std::ptr::null_mut;

type CreateBits = unsafe extern "C" fn(u32, c_int, c_int, *mut u32, c_int) -> *mut c_void;
type Composite = unsafe extern "C" fn(u32, *mut c_void, *mut c_void, *mut c_void, i32, i32, i32, i32, i32, i32, i32, i32);

/// PIXMAN_a8b8g8r8: bytes R, G, B, A on a machine that puts the low byte first.
const FORMAT: u32 = 0x2003_8888;

/// PIXMAN_OP_OVER and so on.
const OPERATORS: [(&str, u32); 5] = [("over", 3), ("in", 5), ("out", 7), ("atop", 9), ("xor", 11)];

const DIFFERS: &str = "in place, so the lower picture is copied first, which is counted; no checks";

/// A picture for as long as the program runs.
fn leaked(bytes: &[u8]) -> *mut u32 {
    bytes.as_chunks().0.iter().map(|word| u32::from_le_bytes(*word)).collect::<Vec<u32>>().leak().as_mut_ptr()
}

pub fn all(side: usize, a: &[u8], b: &[u8]) -> Option<Vec<Other>> {
    let shared = Shared::open("libpixman-1.so.0")?;
    let create: CreateBits = unsafe { shared.function("pixman_image_create_bits")? };
    let composite: Composite = unsafe { shared.function("pixman_image_composite32")? };
    let n = side as i32;
    let (top, below, there) = (leaked(a), leaked(b), leaked(b));
    let [source, result] = [top, there].map(|bits| unsafe { create(FORMAT, n, n, bits, 4 * n) });
    let other = |(name, operator): (&'static str, u32)| {
        let run = move || unsafe {
            there.copy_from_nonoverlapping(below, side * side);
            composite(operator, source, null_mut(), result, 0, 0, 0, 0, 0, 0, n, n);
        };
        Other { name: format!("pixman: {name}"), beside: name.into(), run: Box::new(run), without: None, differs: DIFFERS }
    };
    Some(OPERATORS.into_iter().map(other).collect())
}
