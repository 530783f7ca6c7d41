//! Rows by chunks of 256 pixels, in loops of one kind each: words to words, bytes to bytes. The compiler vectorises these.

pub const BYTES: usize = 1024;

/// Each pixel's alpha in all of its four bytes.
#[inline(never)]
pub fn alphas(pixels: &[u8], out: &mut [u8]) {
    for (out, pixel) in out.as_chunks_mut().0.iter_mut().zip(pixels.as_chunks().0) {
        let alpha = u32::from_le_bytes(*pixel) >> 24;
        let two = alpha | alpha << 8;
        *out = (two | two << 16).to_le_bytes();
    }
}

/// (n + 127) ÷ 255 for n up to 65,025.
#[inline(always)]
pub fn div255(n: u16) -> u8 {
    let t = n + 128;
    ((t + (t >> 8)) >> 8) as u8
}
