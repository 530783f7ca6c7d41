//! Sheets as text (RULES 9): the reader, which gives refusal 15 and its line, then 21, and fills a lent list of records.

use crate::check::Answer;
use crate::fault::Fault;
use crate::line::{canvas, row, step};
use crate::step::{Input, Step, MOST_STEPS};

/// "A file may have 65,536 bytes"; a longer one is refused "before all else, at place 0".
pub const LONGEST_TEXT: usize = 65_536;

/// How many steps and bytes a reader takes.
#[derive(Clone, Copy)]
pub struct Limits {
    pub steps: usize,
    pub bytes: usize,
}

/// The limits in force.
pub const LIMITS: Limits = Limits { steps: MOST_STEPS, bytes: LONGEST_TEXT };

/// Those of rules 1 to 3: "old readers".
pub const EARLIER: Limits = Limits { steps: 16, bytes: 32_768 };

/// What a text says; its steps are the first `count` records of the list that was lent.
#[derive(Clone, PartialEq, Eq, Debug)]
pub struct Reading {
    pub width: usize,
    pub height: usize,
    pub count: usize,
    pub source: Vec<u8>,
}

/// Refusal 15 at a line, counted from 0 here and from 1 in the answer.
fn wrong(line: usize, fault: Fault) -> Answer {
    Answer::refused(15, line + fault.choose(Fault::LinesFromZero, 1, 0))
}

/// "Each line closed by a line feed": the lines up to the first that is not closed, and whether there is one.
fn lines(text: &[u8], fault: Fault) -> (Vec<&[u8]>, bool) {
    let mut lines: Vec<&[u8]> = text.split(|byte| *byte == b'\n').collect();
    let last = lines.pop().unwrap_or(&[]);
    let mut open = !last.is_empty();
    if open && fault.is(Fault::LastLineOpen) {
        lines.push(last);
        open = false;
    }
    if fault.is(Fault::CarriageReturns) {
        lines.iter_mut().for_each(|line| *line = line.strip_suffix(b"\r").unwrap_or(line));
    }
    (lines, open)
}

/// Takes a step line, unless it is one too many.
fn take_step(steps: &mut Vec<Step>, line: &[u8], limits: Limits, fault: Fault) -> Result<bool, Answer> {
    let most = match fault {
        Fault::SixtyFiveSteps => limits.steps + 1,
        Fault::SixtyThreeSteps => limits.steps - 1,
        Fault::SeventeenthRefused => EARLIER.steps,
        _ => limits.steps,
    };
    if steps.len() == most {
        return Ok(false);
    }
    let Some(step) = step(line, fault) else { return Ok(false) };
    let above = |input: &Input| matches!(input, Input::Layer(n) if *n >= steps.len());
    if fault.is(Fault::SevenBeforeFifteen) && step.inputs.iter().any(above) {
        return Err(Answer::refused(7, steps.len()));
    }
    steps.push(step);
    Ok(true)
}

/// Whether a text is too long.
fn is_long(text: &[u8], limits: Limits, fault: Fault) -> bool {
    let most = match fault {
        Fault::LongTextRead => usize::MAX,
        Fault::LongestTextRefused => limits.bytes - 1,
        Fault::EarlierLength => EARLIER.bytes,
        _ => limits.bytes,
    };
    text.len() > most
}

/// Judges a whole text: canvas and source, and its steps up to the first wrong line.
/// "In order: `canvas` W H; up to 64 steps; exactly H lines `row`."
/// "A last line without its line feed and a line after the last row are refused at their own line, missing lines at the
/// line after the last."
fn whole_text(
    text: &[u8],
    limits: Limits,
    steps: &mut Vec<Step>,
    fault: Fault,
) -> Result<(usize, usize, Vec<u8>), Answer> {
    if is_long(text, limits, fault) {
        return Err(Answer::refused(15, 0));
    }
    let (lines, open) = lines(text, fault);
    let Some(first) = lines.first() else { return Err(wrong(0, fault)) };
    let (width, height) = canvas(first, fault).ok_or(wrong(0, fault))?;
    let mut rows: Vec<Vec<u8>> = Vec::new();
    for (n, line) in lines.iter().enumerate().skip(1) {
        if rows.is_empty() && take_step(steps, line, limits, fault)? {
            continue;
        }
        let row = row(line, width, fault).filter(|_| rows.len() < height);
        if rows.len() == height && fault.is(Fault::LinesAfterRows) {
            continue;
        }
        rows.push(row.ok_or(wrong(n, fault))?);
    }
    if open || rows.len() < height {
        return Err(wrong(lines.len() - if open { 0 } else { fault.choose(Fault::MissingAtLast, 0, 1) }, fault));
    }
    Ok((width, height, rows.concat()))
}

/// Judges step lines alone; "a malformed one is 15 with its line", the sixty-fifth too.
fn step_lines(text: &[u8], limits: Limits, steps: &mut Vec<Step>, fault: Fault) -> Result<(), Answer> {
    if text.len() > LONGEST_TEXT && fault.is(Fault::LongStepsRefused) {
        return Err(Answer::refused(15, 0));
    }
    let (lines, open) = lines(text, fault);
    for (n, line) in lines.iter().enumerate() {
        if !take_step(steps, line, limits, fault)? {
            return Err(wrong(n, fault));
        }
    }
    if open {
        Err(wrong(lines.len(), fault))
    } else {
        Ok(())
    }
}

/// Stores the steps of a text that was judged whole. "A reader fills a lent list too: one with fewer records than the text
/// has steps is 21, straight after 15; records past the steps stay."
fn fill<T>(judged: Result<T, Answer>, steps: &[Step], list: &mut [Step], fault: Fault) -> Result<T, Answer> {
    let (count, room) = (steps.len(), list.len());
    let fits = count <= room && !(fault.is(Fault::FullListRefused) && count == room);
    let short = Answer::refused(21, fault.choose(Fault::TwentyOneAtStep, 0, room));
    let store = |list: &mut [Step]| list.iter_mut().zip(steps).for_each(|(record, step)| *record = step.clone());
    if fault.is(Fault::StoredBeforeJudged) {
        store(list);
    }
    if !fits && fault.is(Fault::TwentyOneFirst) {
        return Err(short);
    }
    let said = judged?;
    if !fits && !fault.is(Fault::ShortListFilled) {
        return Err(short);
    }
    store(list);
    if fault.is(Fault::RestBlanked) {
        list[count.min(room)..].fill(Step::BLANK);
    }
    Ok(said)
}

/// Reads a whole text; its steps go into the list.
pub fn read(text: &[u8], list: &mut [Step], limits: Limits, fault: Fault) -> Result<Reading, Answer> {
    let mut steps = Vec::new();
    let judged = whole_text(text, limits, &mut steps, fault);
    let (width, height, source) = fill(judged, &steps, list, fault)?;
    Ok(Reading { width, height, count: steps.len(), source })
}

/// Reads step lines alone, as the library takes them, into the list; how many there are.
pub fn read_steps(text: &[u8], list: &mut [Step], limits: Limits, fault: Fault) -> Result<usize, Answer> {
    let mut steps = Vec::new();
    let judged = step_lines(text, limits, &mut steps, fault);
    fill(judged, &steps, list, fault).map(|()| steps.len())
}

/// The steps of lines alone, by a list of as many records as a sheet may have steps.
pub fn steps_of(text: &[u8], fault: Fault) -> Result<Vec<Step>, Answer> {
    let mut list = vec![Step::BLANK; MOST_STEPS];
    let count = read_steps(text, &mut list, LIMITS, fault)?;
    list.truncate(count);
    Ok(list)
}
