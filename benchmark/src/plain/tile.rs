//! Eight rows turned so that a pass along rows goes down lines of 32 bytes: a pixel of each row beside the others.

pub const ROWS: usize = 8;
pub const LINE: usize = 4 * ROWS;

/// Puts a row in its place among the eight.
pub fn spread(row: &[u8], tile: &mut [u8], place: usize) {
    for (line, pixel) in tile.as_chunks_mut::<LINE>().0.iter_mut().zip(row.as_chunks::<4>().0) {
        line.as_chunks_mut().0[place] = *pixel;
    }
}

/// Takes it back.
pub fn gather(tile: &[u8], place: usize, row: &mut [u8]) {
    for (line, pixel) in tile.as_chunks::<LINE>().0.iter().zip(row.as_chunks_mut::<4>().0) {
        *pixel = line.as_chunks().0[place];
    }
}
