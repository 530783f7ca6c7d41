//! Blur, erode and dilate: by hand, and once more from each window as a whole.

mod common;

use common::*;
use reference::cases::picture;
use reference::fault::Fault;
use reference::picture::Picture;
use reference::random::Random;
use reference::window::{box_size, boxes, extreme};

#[test]
fn even_boxes() {
    assert_eq!(boxes(0, Fault::None), []);
    assert_eq!(boxes(1, Fault::None), []);
    assert_eq!(boxes(3, Fault::None), [(-1, 1); 3]);
    assert_eq!(boxes(4, Fault::None), [(-2, 1), (-1, 2), (-2, 2)]);
    // d of 2: 0 0 255 0 0 becomes 0 0 128 128 0, then 0 64 128 64 0, then thirds of three neighbours.
    let row = alphas(&[0, 0, 255, 0, 0]);
    assert_eq!(last_layer(5, 1, "blur 0 0 5 1 src 1 0\n", &row), alphas(&[21, 64, 85, 64, 21]));
}

/// What a pass would put outside the canvas is lost to the next.
#[test]
fn canvas_cuts_between_passes() {
    let row = alphas(&[0, 255]);
    // The first box gives 0 128 (a third pixel would have 128), the second 64 64, the third 43 43.
    assert_eq!(last_layer(2, 1, "blur 0 0 2 1 src 1 0\n", &row), alphas(&[43, 43]));
}

#[test]
fn box_sizes_never_shrink() {
    let sizes: Vec<i64> = (0..=32 * 65_536).map(|units| box_size(units, Fault::None)).collect();
    assert!(sizes.windows(2).all(|pair| pair[0] <= pair[1] && pair[1] <= pair[0] + 1));
    assert_eq!((sizes[0], sizes[sizes.len() - 1]), (0, 60));
}

#[test]
fn extremes_from_whole_windows() {
    let mut random = Random::new(5);
    for _ in 0..300 {
        let (width, height) = (1 + random.below(8), 1 + random.below(8));
        let (rx, ry) = (random.within(0, 4), random.within(0, 4));
        let input = Picture::from_bytes(width, height, &picture(&mut random, width * height));
        for largest in [false, true] {
            let whole = Picture::of(width, height, |x, y| {
                let window = (y - ry..=y + ry).flat_map(|v| (x - rx..=x + rx).map(move |u| (u, v)));
                let pick = |a: u8, b: u8| if largest { a.max(b) } else { a.min(b) };
                let each = |a: [u8; 4], b: [u8; 4]| [0, 1, 2, 3].map(|i| pick(a[i], b[i]));
                window.map(|(u, v)| input.at(u, v)).reduce(each).expect("not empty")
            });
            assert_eq!(extreme(&input, rx, ry, largest, Fault::None), whole);
        }
    }
}

#[test]
fn erode_reads_transparent_black_outside() {
    let row = alphas(&[9; 5]);
    assert_eq!(last_layer(5, 1, "erode 0 0 5 1 src 1 0\n", &row), alphas(&[0, 9, 9, 9, 0]));
    assert_eq!(last_layer(5, 1, "erode 0 0 5 1 src 2 0\n", &row), alphas(&[0, 0, 9, 0, 0]));
    assert_eq!(last_layer(5, 1, "erode 0 0 5 1 src 3 0\n", &row), alphas(&[0; 5]));
    assert_eq!(last_layer(5, 1, "erode 0 0 5 1 src 0 1\n", &row), alphas(&[0; 5]));
}

#[test]
fn dilate_is_as_wide_on_both_sides() {
    let row = alphas(&[0, 0, 0, 7, 0, 0, 0]);
    assert_eq!(last_layer(7, 1, "dilate 0 0 7 1 src 2 0\n", &row), alphas(&[0, 7, 7, 7, 7, 7, 0]));
    assert_eq!(last_layer(1, 7, "dilate 0 0 1 7 src 0 2\n", &row), alphas(&[0, 7, 7, 7, 7, 7, 0]));
    assert_eq!(last_layer(7, 1, "dilate 0 0 7 1 src 0 0\n", &row), row);
}

#[test]
fn offset_moves_right_and_down() {
    let source = alphas(&[1, 2, 3, 4]);
    assert_eq!(last_layer(2, 2, "offset 0 0 2 2 src 1 0\n", &source), alphas(&[0, 1, 0, 3]));
    assert_eq!(last_layer(2, 2, "offset 0 0 2 2 src 0 -1\n", &source), alphas(&[3, 4, 0, 0]));
    assert_eq!(last_layer(2, 2, "offset 0 0 2 2 src -1024 1024\n", &source), alphas(&[0; 4]));
}
