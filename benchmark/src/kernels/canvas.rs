//! The pictures and work rows that the kernels are measured on.
use super::{prepare_arithmetic, prepare_convert, prepare_curve, prepare_luminance, prepare_saturate, prepare_unpremultiply, Coefficients};
use crate::calls::sheets::MAPS;
use crate::picture::{picture, ONE, OTHER};
use crate::plain::curve::{maps, Curve};
use crate::plain::units;

pub const HALF: Coefficients = [0, 32768, 32768, 0];
pub const SATURATION: u64 = 32768;

pub struct Canvas {
    pub side: usize,
    pub a: Vec<u8>,
    pub b: Vec<u8>,
    pub out: Vec<u8>,
    /// Two pictures beside each other, for passes down a picture.
    pub pair: Vec<u8>,
    /// Lines of eight rows, twice, for passes along rows.
    pub tile: Vec<u8>,
    /// A row, twice.
    pub two_rows: Vec<u8>,
    pub sums: Vec<u16>,
    pub row_a: Vec<u8>,
    pub row_b: Vec<u8>,
    pub factor_a: Vec<u8>,
    pub factor_b: Vec<u8>,
    pub products: Box<[u8; 65536]>,
    pub weights: Box<[u64; 4096]>,
    pub inverse: Box<[u32; 512]>,
    pub luminance: Box<[u32; 768]>,
    pub to_linear: Box<[u8; 65536]>,
    pub to_srgb: Box<[u8; 65536]>,
    pub maps: Box<[u8; 1024]>,
    pub curve: Box<[u8; 196608]>,
    /// The plain version's.
    pub plain_curve: Curve,
}

impl Canvas {
    pub fn new(side: usize) -> Canvas {
        let (row, size) = (4 * side, 4 * side * side);
        let maps = maps(&MAPS.split(' ').collect::<Vec<_>>(), units);
        let mut canvas = Canvas {
            side,
            a: picture(side, ONE),
            b: picture(side, OTHER),
            out: vec![1; size],
            pair: vec![1; 2 * size],
            tile: vec![0; 64 * side],
            two_rows: vec![0; 2 * row],
            sums: vec![0; row],
            row_a: vec![0; row],
            row_b: vec![0; row],
            factor_a: vec![0; row],
            factor_b: vec![0; row],
            products: Box::new([0; 65536]),
            weights: Box::new([0; 4096]),
            inverse: Box::new([0; 512]),
            luminance: Box::new([0; 768]),
            to_linear: Box::new([0; 65536]),
            to_srgb: Box::new([0; 65536]),
            maps: Box::new(maps.concat().try_into().expect("four maps")),
            curve: Box::new([0; 196608]),
            plain_curve: Curve::new(maps, side * side, None),
        };
        prepare_arithmetic(HALF, &mut canvas.products);
        prepare_saturate(SATURATION, &mut canvas.weights);
        prepare_unpremultiply(&mut canvas.inverse);
        prepare_luminance(&mut canvas.luminance);
        prepare_convert(true, &mut canvas.to_linear);
        prepare_convert(false, &mut canvas.to_srgb);
        prepare_curve(&canvas.maps, &mut canvas.curve);
        canvas
    }
}
