//! Partial redraws: equal to full renders, nothing altered outside, counts by hand.

mod common;

use common::*;
use reference::cases::{case, picture, region as any_region, sheet, style};
use reference::check::{check, Answer, Call};
use reference::compare::{redraw_is_render, Reference};
use reference::damage::rectangles;
use reference::fault::Fault;
use reference::print;
use reference::random::Random;
use reference::rect::Rect;

#[test]
fn redraw_equals_render() {
    let mut random = Random::new(11);
    for _ in 0..6_000 {
        let mut case = case(&mut random);
        let (width, height) = (case.width.clamp(1, 16), case.height.clamp(1, 16));
        let steps = sheet(&mut random, 4, width, height, false);
        (case.width, case.height) = (width, height);
        case.steps = print::steps(&steps, style(&mut random)).into_bytes();
        case.source = picture(&mut random, width * height);
        case.workspace = vec![0; 16 * width * height];
        case.scratch = vec![1; 8 * width * height];
        case.rect = any_region(&mut random, width, height);
        redraw_is_render(&Reference(Fault::None), &case, &mut random).expect("the same");
    }
}

/// On any workspace, no byte outside the rectangles changes, and the count is the sum of their areas.
#[test]
fn nothing_outside_is_altered() {
    let mut random = Random::new(12);
    for _ in 0..3_000 {
        let (width, height) = (1 + random.below(9), 1 + random.below(9));
        let steps = sheet(&mut random, 3, width, height, false);
        let source = picture(&mut random, width * height);
        let before = picture(&mut random, 3 * width * height);
        let rect = any_region(&mut random, width, height);
        let call = Call {
            width,
            height,
            steps: &steps,
            rect: Some(rect),
            source: &source,
            workspace: &before,
            scratch: &vec![0; 8 * width * height],
        };
        let checked = check(&call, Fault::None).expect("accepted");
        let rects = rectangles(width, height, &checked, Rect::of(rect), Fault::None);
        let mut after = before.clone();
        let (answer, count) = redrawn(width, height, &steps, rect, &source, &mut after);
        assert_eq!((answer, count), (Answer::DONE, rects.iter().map(|rect| rect.area()).sum()));
        for pixel in 0..3 * width * height {
            let (n, place) = (pixel / (width * height), pixel % (width * height));
            if !rects[n].holds((place % width) as i64, (place / width) as i64) {
                assert_eq!(before[4 * pixel..4 * pixel + 4], after[4 * pixel..4 * pixel + 4]);
            }
        }
    }
}

fn count(lines: &str, rect: [usize; 4]) -> u64 {
    let steps = steps(lines);
    let [x, y, width, height] = rect;
    let mut workspace = vec![0; 4 * 20 * 10 * steps.len()];
    let (answer, count) = redrawn(20, 10, &steps, region(x, y, width, height), &vec![0; 800], &mut workspace);
    assert_eq!(answer, Answer::DONE);
    count
}

#[test]
fn counts_by_hand() {
    // A flood is never worked again; the steps that read the source are, once each.
    assert_eq!(count("flood 0 0 20 10 1 2 3 1\nover 0 0 20 10 0 src\nlumalpha 0 0 20 10 1\n", [4, 4, 3, 2]), 12);
    // Moved by 2, −1, then cut to the region: columns 6 to 8, rows 3 to 4, of which the region has columns 0 to 6.
    assert_eq!(count("offset 0 0 7 10 src 2 -1\n", [4, 4, 3, 2]), 2);
    // Moved off the canvas: empty, and empty stays so.
    assert_eq!(count("offset 0 0 20 10 alpha 20 0\nblur 0 0 20 10 0 4 4\n", [4, 4, 3, 2]), 0);
    // d of 1.5 is 3: 3 on both sides; d of 2 is 4: 5 above and below, cut by the canvas.
    assert_eq!(count("blur 0 0 20 10 src 1.5 0\n", [8, 4, 1, 1]), 7);
    assert_eq!(count("blur 0 0 20 10 src 0 2\n", [8, 4, 1, 1]), 10);
    assert_eq!(count("blur 0 0 20 10 src 2 0\n", [8, 4, 1, 1]), 11);
    // d of 0.25 and 0.5 is 0 and 1: no growth.
    assert_eq!(count("blur 0 0 20 10 src 0.25 0.5\n", [8, 4, 1, 1]), 1);
    // Radius 3 grows by 3 on each side, radius 1 by 1: 7 by 3; at a corner the canvas cuts it to 4 by 2.
    assert_eq!(count("erode 0 0 20 10 src 3 1\n", [8, 4, 1, 1]), 21);
    assert_eq!(count("erode 0 0 20 10 src 3 1\n", [0, 0, 1, 1]), 8);
    assert_eq!(count("dilate 0 0 20 10 src 3 1\n", [19, 9, 1, 1]), 8);
    // Radius 0 grows nothing.
    assert_eq!(count("dilate 0 0 20 10 src 0 0\n", [8, 4, 1, 1]), 1);
    // The smallest rectangle that holds (2, 2) and (12, 5): 11 by 4; the third input is empty.
    assert_eq!(
        count("offset 0 0 20 10 src 10 3\nflood 0 0 20 10 0 0 0 1\nmerge 0 0 20 10 src 0 1\n", [2, 2, 1, 1]),
        1 + 44
    );
    // An empty rectangle, inside the canvas, is no work.
    assert_eq!(count("blur 0 0 20 10 src 2 2\n", [20, 10, 0, 0]), 0);
    assert_eq!(count("blur 0 0 20 10 src 2 2\n", [3, 3, 4, 0]), 0);
    // An empty region.
    assert_eq!(count("blur 5 5 0 3 src 2 2\nlumalpha 0 0 20 10 0\n", [3, 3, 4, 2]), 0);
}

#[test]
fn region_cuts_after_the_work() {
    let row = alphas(&[0, 0, 255, 0, 0]);
    assert_eq!(last_layer(5, 1, "blur 0 0 2 1 src 1.5 0\n", &row), alphas(&[28, 57, 0, 0, 0]));
    assert_eq!(last_layer(5, 1, "blur 3 0 2 1 src 1.5 0\n", &row), alphas(&[0, 0, 0, 57, 28]));
}
