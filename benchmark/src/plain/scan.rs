//! The first pixel with a colour above its alpha.
use super::chunk::{alphas, BYTES};

fn valid(pixels: &[u8], room: &mut [u8; BYTES]) -> bool {
    alphas(pixels, room);
    pixels.iter().zip(room).fold(0, |bad, (colour, alpha)| bad | colour.saturating_sub(*alpha)) == 0
}

/// Pixel by pixel only in the chunk that has it.
pub fn first_invalid(pixels: &[u8]) -> Option<usize> {
    let mut room = [0; BYTES];
    let chunk = pixels.chunks(BYTES).position(|chunk| !valid(chunk, &mut room))?;
    let from = chunk * BYTES;
    let bad = pixels[from..].chunks_exact(4).position(|p| p[..3].iter().any(|colour| *colour > p[3]));
    bad.map(|pixel| from / 4 + pixel)
}
