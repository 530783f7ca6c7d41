//! Pictures: rows of pixels, "transparent black" outside the canvas.

use crate::pixel::{Pixel, CLEAR};

#[derive(Clone, PartialEq, Eq, Debug)]
pub struct Picture {
    pub width: usize,
    pub height: usize,
    pixels: Vec<Pixel>,
}

impl Picture {
    /// The picture whose pixel at (x, y) is `pixel(x, y)`.
    pub fn of(width: usize, height: usize, mut pixel: impl FnMut(i64, i64) -> Pixel) -> Picture {
        let mut pixels = Vec::with_capacity(width * height);
        for y in 0..height {
            for x in 0..width {
                pixels.push(pixel(x as i64, y as i64));
            }
        }
        Picture { width, height, pixels }
    }

    pub fn blank(width: usize, height: usize) -> Picture {
        Picture { width, height, pixels: vec![CLEAR; width * height] }
    }

    /// "Rows top to bottom, 4·W·H bytes."
    pub fn from_bytes(width: usize, height: usize, bytes: &[u8]) -> Picture {
        assert_eq!(bytes.len(), 4 * width * height);
        let pixels = bytes.chunks_exact(4).map(|p| [p[0], p[1], p[2], p[3]]).collect();
        Picture { width, height, pixels }
    }

    pub fn bytes(&self) -> Vec<u8> {
        self.pixels.concat()
    }

    /// "Reads outside the canvas give transparent black."
    pub fn at(&self, x: i64, y: i64) -> Pixel {
        if x < 0 || y < 0 || x >= self.width as i64 || y >= self.height as i64 {
            return CLEAR;
        }
        self.pixels[y as usize * self.width + x as usize]
    }

    /// "The source's alpha (R, G, B zero)."
    pub fn alpha(&self) -> Picture {
        let pixels = self.pixels.iter().map(|p| [0, 0, 0, p[3]]).collect();
        Picture { pixels, ..*self }
    }
}
