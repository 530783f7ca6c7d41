//! Calls of the entry points for the program `calls`: what it reads, and the lines that it has to print.
//!
//! An entry is a line and what is handed over. The line: a name of 12 characters; a letter for what is printed of a layer;
//! twelve fields of 16 hex digits with nothing between them: width, height, the rectangle's x, y, width and height, the
//! count of steps that the view is asked with, the layer to print, the lengths of step lines, source, workspace and
//! scratch; a line feed. Then the step lines and the bytes of the three buffers.
//!
//! An entry is rendered and redrawn, on buffers of its own each time, a line a call: name, call, number, place, a redraw's
//! count; the workspace `kept` or `changed`; the scratch `kept`, or `cleared` to zeros, or `changed`; then as the letter
//! says: `s` the sum of the workspace, the length and the sum of the layer (`sums::poly`), `x` the layer's pixels in hex,
//! `a` its alphas, `-` nothing. A text that is not of the form has one line: name, `text`, 15, line.

use super::listed::listed;
use super::{case, picture, style, Case};
use crate::check::{side_is_wrong, Answer};
use crate::fault::Fault;
use crate::print;
use crate::random::Random;
use crate::render::{layer, redraw, render, Sheet};
use crate::step::Region;
use crate::sums::poly;
use crate::text::steps_of;

/// What the program has room for.
const MOST_LINES: usize = 8192;
const MOST_SOURCE: usize = 2048;
const MOST_WORKSPACE: usize = 16_384;
const MOST_SCRATCH: usize = 4096;

pub struct Entry {
    pub name: String,
    pub show: char,
    pub count: usize,
    pub layer: usize,
    pub case: Case,
}

/// The listed calls, then `many` random ones: the program's input and the lines.
pub fn entries(seed: u64, many: usize) -> (Vec<u8>, String) {
    let all = calls(seed, many);
    (all.iter().flat_map(written).collect(), answers(&all, Fault::None))
}

pub fn calls(seed: u64, many: usize) -> Vec<Entry> {
    let mut random = Random::new(seed);
    let mut all = listed();
    let end = all.len() + many;
    while all.len() < end {
        let name = format!("{}", all.len());
        all.extend(random_entry(&mut random, name));
    }
    all
}

/// The lines of calls, of the rules with a fault or without.
pub fn answers(all: &[Entry], fault: Fault) -> String {
    all.iter().map(|entry| lines(entry, fault)).collect()
}

fn fits(case: &Case) -> bool {
    let lengths = [&case.steps, &case.source, &case.workspace, &case.scratch].map(Vec::len);
    lengths.iter().zip([MOST_LINES, MOST_SOURCE, MOST_WORKSPACE, MOST_SCRATCH]).all(|(length, most)| *length <= most)
}

/// Nothing where the case is too large.
fn random_entry(random: &mut Random, name: String) -> Option<Entry> {
    let mut case = case(random);
    if random.once_in(2) {
        widen(random, &mut case);
    }
    if random.once_in(2) {
        hold_old_layers(random, &mut case);
    }
    let lines = steps_of(&case.steps, Fault::None).map_or(0, |steps| steps.len());
    let count = if random.once_in(24) { lines.saturating_add_signed(random.pick(&[-1, 1, 17, 65])) } else { lines };
    let layer = random.pick(&[count.saturating_sub(1), count.saturating_sub(1), count / 2, 0, count, usize::MAX]);
    fits(&case).then_some(Entry { name, show: 's', count, layer, case })
}

/// Most regions become the whole canvas, and the rectangle holds a pixel: much is drawn.
fn widen(random: &mut Random, case: &mut Case) {
    let (width, height) = (case.width, case.height);
    let Ok(mut steps) = steps_of(&case.steps, Fault::None) else { return };
    if side_is_wrong(width) || side_is_wrong(height) {
        return;
    }
    for step in &mut steps {
        if !random.once_in(4) {
            step.region = Region { x: 0, y: 0, width, height };
        }
    }
    case.steps = print::steps(&steps, style(random)).into_bytes();
    let (x, y) = (random.below(width), random.below(height));
    case.rect = Region { x, y, width: 1 + random.below(width - x), height: 1 + random.below(height - y) };
}

/// The layers of an older picture, which differs inside the changed rectangle only, where the call is one that a full
/// render accepts.
fn hold_old_layers(random: &mut Random, case: &mut Case) {
    let Region { x, y, width, height } = case.rect;
    let inside = x.saturating_add(width) <= case.width && y.saturating_add(height) <= case.height;
    let Ok(steps) = steps_of(&case.steps, Fault::None) else { return };
    let sheet = Sheet::whole(case.width, case.height, &steps);
    let (mut layers, mut scratch) = (case.workspace.clone(), case.scratch.clone());
    if !inside || render(sheet, &case.source, &mut layers, &mut scratch, Fault::None) != Answer::DONE {
        return;
    }
    let mut old = case.source.clone();
    let other = picture(random, case.width * case.height);
    for row in y..y + height {
        let (from, to) = (4 * (row * case.width + x), 4 * (row * case.width + x + width));
        old[from..to].copy_from_slice(&other[from..to]);
    }
    render(sheet, &old, &mut case.workspace, &mut scratch, Fault::None);
}

fn written(entry: &Entry) -> Vec<u8> {
    let Case { width, height, steps, rect, source, workspace, scratch } = &entry.case;
    let lengths = [steps, source, workspace, scratch].map(Vec::len);
    let fields = [*width, *height, rect.x, rect.y, rect.width, rect.height, entry.count, entry.layer];
    let fields: String = fields.iter().chain(&lengths).map(|field| format!("{field:016x}")).collect();
    let head = format!("{:12}{}{fields}\n", entry.name, entry.show);
    [head.as_bytes(), steps, source, workspace, scratch].concat()
}

fn lines(entry: &Entry, fault: Fault) -> String {
    let Case { width, height, rect, source, .. } = &entry.case;
    let steps = match steps_of(&entry.case.steps, fault) {
        Err(refused) => return format!("{:12} text {} {}\n", entry.name, refused.number, refused.place),
        Ok(steps) => steps,
    };
    let sheet = Sheet::whole(*width, *height, &steps);
    let (mut workspace, mut scratch) = (entry.case.workspace.clone(), entry.case.scratch.clone());
    let answer = render(sheet, source, &mut workspace, &mut scratch, fault);
    let rendered = format!("{:12} render {} {}", entry.name, answer.number, answer.place);
    let after_render = after(entry, &workspace, &scratch, fault);
    let (mut workspace, mut scratch) = (entry.case.workspace.clone(), entry.case.scratch.clone());
    let (answer, count) = redraw(sheet, *rect, source, &mut workspace, &mut scratch, fault);
    let redrawn = format!("{:12} redraw {} {} {count}", entry.name, answer.number, answer.place);
    format!("{rendered}{after_render}\n{redrawn}{}\n", after(entry, &workspace, &scratch, fault))
}

fn after(entry: &Entry, workspace: &[u8], scratch: &[u8], fault: Fault) -> String {
    let kept = if workspace == entry.case.workspace { "kept" } else { "changed" };
    let cleared = if scratch == entry.case.scratch {
        "kept"
    } else if scratch.iter().all(|byte| *byte == 0) {
        "cleared"
    } else {
        "changed"
    };
    format!(" {kept} {cleared}{}", shown(entry, workspace, fault))
}

fn shown(entry: &Entry, workspace: &[u8], fault: Fault) -> String {
    let Case { width, height, .. } = entry.case;
    let (offset, length) = layer(width, height, entry.count, entry.layer, workspace.len(), fault);
    // A wrong view may end beyond the workspace.
    let view = &workspace[offset..workspace.len().min(offset + length)];
    match entry.show {
        's' => format!(" {} {} {}", poly(workspace), length, poly(view)),
        'x' => view.chunks_exact(4).map(|p| format!(" {:02x}{:02x}{:02x}{:02x}", p[0], p[1], p[2], p[3])).collect(),
        'a' => view.chunks_exact(4).map(|p| format!(" {}", p[3])).collect(),
        _ => String::new(),
    }
}
