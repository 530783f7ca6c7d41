//! Sheets on a canvas with a changed rectangle, for the checks and the redraw rectangles alone: no pictures.
//!
//! An entry is a line of seven fields of four hex digits with nothing between them (width, height, the rectangle's x, y,
//! width and height, the length of the step lines) and then the step lines. Its answer is a line: its number from 0, the
//! refusal's number and place; where it is accepted also the count, and for each step its rectangle as left, right, top
//! and bottom, or - where that is empty.

use super::case;
use crate::check::{check, side_is_wrong, Answer, Call};
use crate::damage::{count, rectangles};
use crate::fault::Fault;
use crate::random::Random;
use crate::rect::Rect;
use crate::step::Region;
use crate::text::steps_of;

const MOST: usize = 0xffff;

/// What the program has room for.
const MOST_LINES: usize = 8192;

pub fn entries(seed: u64, many: usize) -> (Vec<u8>, String) {
    let mut random = Random::new(seed);
    let (mut given, mut answers) = (Vec::new(), String::new());
    for n in 0..many {
        let case = std::iter::repeat_with(|| case(&mut random)).find(|case| case.steps.len() <= MOST_LINES);
        let case = case.expect("some are short");
        let (width, height) = (case.width.min(MOST), case.height.min(MOST));
        let Region { x, y, width: across, height: down } = case.rect;
        let rect = Region { x: x.min(MOST), y: y.min(MOST), width: across.min(MOST), height: down.min(MOST) };
        let sides = [width, height, rect.x, rect.y, rect.width, rect.height, case.steps.len()];
        given.extend(sides.map(|side| format!("{side:04x}")).concat().into_bytes());
        given.push(b'\n');
        given.extend(&case.steps);
        answers.push_str(&format!("{n} {}\n", answer(width, height, rect, &case.steps)));
    }
    (given, answers)
}

fn answer(width: usize, height: usize, rect: Region, text: &[u8]) -> String {
    match planned(width, height, rect, text) {
        Err(answer) => format!("{} {}", answer.number, answer.place),
        Ok(rects) => {
            let places: Vec<String> = rects.iter().map(place).collect();
            format!("0 0 {} {}", count(&rects, Rect::of(rect), Fault::None), places.join(" "))
        }
    }
}

fn place(rect: &Rect) -> String {
    if rect.is_empty() {
        return "-".to_string();
    }
    format!("{} {} {} {}", rect.left, rect.right, rect.top, rect.bottom)
}

fn planned(width: usize, height: usize, rect: Region, text: &[u8]) -> Result<Vec<Rect>, Answer> {
    let steps = steps_of(text, Fault::None)?;
    let size = if side_is_wrong(width) || side_is_wrong(height) { 0 } else { 4 * width * height };
    let (source, workspace, scratch) = (vec![0; size], vec![0; size * steps.len()], vec![0; 2 * size]);
    let call = Call {
        width,
        height,
        steps: &steps,
        rect: Some(rect),
        source: &source,
        workspace: &workspace,
        scratch: &scratch,
    };
    let checked = check(&call, Fault::None)?;
    Ok(rectangles(width, height, &checked, Rect::of(rect), Fault::None))
}
