//! Porter-Duff and merge, a row at a time, in sums of 16 bits.
use super::chunk::{alphas, div255, BYTES};
use super::step::Operator;

fn times(a: u8, b: u8) -> u16 {
    a as u16 * b as u16
}

/// 255·cA is a multiple of 255 and stays outside of the division.
#[inline(always)]
fn over(a: u8, b: u8, f: u8) -> u8 {
    a.wrapping_add(div255(times(b, 255 - f)))
}

/// cA·FA, with FA from B's alpha.
fn masked(a: &[u8], b: &[u8], dst: &mut [u8], factor: impl Fn(u8) -> u8) {
    let mut g = [0; BYTES];
    for ((dst, a), b) in dst.chunks_mut(BYTES).zip(a.chunks(BYTES)).zip(b.chunks(BYTES)) {
        alphas(b, &mut g);
        for ((dst, a), g) in dst.iter_mut().zip(a).zip(&g) {
            *dst = div255(times(*a, factor(*g)));
        }
    }
}

/// cA·FA + cB·(255 − aA), with FA from B's alpha; at most 65,025 for valid pixels.
fn both(a: &[u8], b: &[u8], dst: &mut [u8], factor: impl Fn(u8) -> u8) {
    let (mut f, mut g) = ([0; BYTES], [0; BYTES]);
    for ((dst, a), b) in dst.chunks_mut(BYTES).zip(a.chunks(BYTES)).zip(b.chunks(BYTES)) {
        alphas(a, &mut f);
        alphas(b, &mut g);
        for ((((dst, a), b), f), g) in dst.iter_mut().zip(a).zip(b).zip(&f).zip(&g) {
            *dst = div255(times(*a, factor(*g)) + times(*b, 255 - f));
        }
    }
}

pub fn row(operator: Operator, a: &[u8], b: &[u8], dst: &mut [u8]) {
    match operator {
        Operator::Over => {
            let mut f = [0; BYTES];
            for ((dst, a), b) in dst.chunks_mut(BYTES).zip(a.chunks(BYTES)).zip(b.chunks(BYTES)) {
                alphas(a, &mut f);
                for (((dst, a), b), f) in dst.iter_mut().zip(a).zip(b).zip(&f) {
                    *dst = over(*a, *b, *f);
                }
            }
        }
        Operator::In => masked(a, b, dst, |g| g),
        Operator::Out => masked(a, b, dst, |g| 255 - g),
        Operator::Atop => both(a, b, dst, |g| g),
        Operator::Xor => both(a, b, dst, |g| 255 - g),
    }
}

/// One more input of a merge, laid over what is there.
pub fn lay_over(top: &[u8], there: &mut [u8]) {
    let mut f = [0; BYTES];
    for (there, top) in there.chunks_mut(BYTES).zip(top.chunks(BYTES)) {
        alphas(top, &mut f);
        for ((there, top), f) in there.iter_mut().zip(top).zip(&f) {
            *there = over(*top, *there, *f);
        }
    }
}
