//! Sheets from lines of text, drawn or refused.
#![allow(dead_code)]

pub mod records;

use reference::check::Answer;
use reference::fault::Fault;
use reference::print::in_srgb;
use reference::render::{redraw, render, Sheet};
use reference::step::{Region, Step};
use reference::text::steps_of;

/// Step lines written with spaces for tabs, and read with `srgb`.
pub fn steps(lines: &str) -> Vec<Step> {
    as_written(&in_srgb(lines))
}

/// The same as they stand: linear where they name no space.
pub fn as_written(lines: &str) -> Vec<Step> {
    steps_of(lines.replace(' ', "\t").as_bytes(), Fault::None).expect("well formed")
}

pub fn region(x: usize, y: usize, width: usize, height: usize) -> Region {
    Region { x, y, width, height }
}

/// Pixels from hex words.
pub fn pixels(words: &str) -> Vec<u8> {
    let word = |word: &str| u32::from_str_radix(word, 16).expect("hex").to_be_bytes();
    words.split_whitespace().flat_map(word).collect()
}

/// A row of pixels of that alpha, black.
pub fn alphas(values: &[u8]) -> Vec<u8> {
    values.iter().flat_map(|a| [0, 0, 0, *a]).collect()
}

/// The answer and the workspace of a full render with right buffers.
pub fn drawn(width: usize, height: usize, steps: &[Step], source: &[u8]) -> (Answer, Vec<u8>) {
    let size = 4 * width * height;
    let (mut workspace, mut scratch) = (vec![9; size * steps.len()], vec![9; 2 * size]);
    let answer = render(Sheet::whole(width, height, steps), source, &mut workspace, &mut scratch, Fault::None);
    if answer == Answer::DONE {
        assert!(scratch.iter().all(|byte| *byte == 0), "scratch is all zero after an accepted call");
    } else {
        assert!(scratch.iter().chain(&workspace).all(|byte| *byte == 9), "a refusal changes nothing");
    }
    (answer, workspace)
}

/// The last layer of an accepted sheet.
pub fn last_layer(width: usize, height: usize, lines: &str, source: &[u8]) -> Vec<u8> {
    let steps = steps(lines);
    let (answer, workspace) = drawn(width, height, &steps, source);
    assert_eq!(answer, Answer::DONE);
    workspace[4 * width * height * (steps.len() - 1)..].to_vec()
}

/// A redraw with right buffers on a workspace.
pub fn redrawn(
    width: usize,
    height: usize,
    steps: &[Step],
    rect: Region,
    source: &[u8],
    workspace: &mut [u8],
) -> (Answer, u64) {
    let mut scratch = vec![7; 8 * width * height];
    redraw(Sheet::whole(width, height, steps), rect, source, workspace, &mut scratch, Fault::None)
}
