//! Refusal numbers, in the order of checking (RULES 7): 1 to 14, 16 and 17.

use crate::convolve::{exact_sum, Convolution, MOST_ORDER};
use crate::fault::Fault;
use crate::number::{judge, Number, UNIT};
use crate::step::{Checked, Input, Kind, Region, Step, LONGEST_SIDE, MOST_STEPS};
use crate::transfer::{Transfer, MOST_ENTRIES};
use crate::window::box_size;

/// "An answer has a number and a place."
#[derive(Clone, Copy, PartialEq, Eq, Debug)]
pub struct Answer {
    pub number: u8,
    pub place: u64,
}

impl Answer {
    pub const DONE: Answer = Answer { number: 0, place: 0 };

    pub fn refused(number: u8, place: usize) -> Answer {
        Answer { number, place: place as u64 }
    }
}

/// All that a call is given. `rect` is the rectangle that a redraw names.
pub struct Call<'a> {
    pub width: usize,
    pub height: usize,
    pub steps: &'a [Step],
    pub rect: Option<Region>,
    pub source: &'a [u8],
    pub workspace: &'a [u8],
    pub scratch: &'a [u8],
}

pub fn side_is_wrong(side: usize) -> bool {
    side == 0 || side > LONGEST_SIDE
}

/// x + width ≤ W and y + height ≤ H, also for an empty one.
fn leaves(region: Region, width: usize, height: usize, empty_anywhere: bool) -> bool {
    let Region { x, y, width: across, height: down } = region;
    if empty_anywhere && (across == 0 || down == 0) {
        return false;
    }
    x as u128 + across as u128 > width as u128 || y as u128 + down as u128 > height as u128
}

/// Checks 1 to 6.
fn buffers(call: &Call, fault: Fault) -> Result<(), Answer> {
    let (width, height, steps) = (call.width, call.height, call.steps.len());
    if side_is_wrong(width) || side_is_wrong(height) {
        return Err(Answer::refused(1, 0));
    }
    let outside = call.rect.is_some_and(|rect| leaves(rect, width, height, fault.is(Fault::EmptyRectAnywhere)));
    let scratch = 8 * width * height;
    let scratch_is_wrong =
        if fault.is(Fault::LongScratchAllowed) { call.scratch.len() < scratch } else { call.scratch.len() != scratch };
    let most = match fault {
        Fault::MoreThanSixteen => 16,
        Fault::SixtyFiveCounted => MOST_STEPS + 1,
        _ => MOST_STEPS,
    };
    let layers = fault.choose(Fault::WorkspaceOfSixteen, steps, steps.min(16));
    let mut checks = [
        (2, call.source.len() != 4 * width * height),
        (3, steps == 0 || steps > most),
        (4, call.workspace.len() != 4 * width * height * layers),
        (5, scratch_is_wrong),
        (6, outside),
    ];
    match fault {
        Fault::ThreeBeforeTwo => checks.swap(0, 1),
        Fault::FiveBeforeFour => checks.swap(2, 3),
        Fault::SixBeforeFive => checks.swap(3, 4),
        _ => {}
    }
    match checks.iter().find(|(_, wrong)| *wrong) {
        Some((number, _)) => Err(Answer::refused(*number, 0)),
        None => Ok(()),
    }
}

/// The inputs that the kind uses; others are never looked at.
fn used(step: &Step) -> &[Input] {
    let (_, most) = step.kind.inputs();
    if step.kind == Kind::Merge {
        &step.inputs
    } else {
        &step.inputs[..most.min(step.inputs.len())]
    }
}

/// "An input is not allowed, or merge has 0 or above 4": a layer needs "a smaller number than the step's own".
fn inputs_are_wrong(n: usize, step: &Step, fault: Fault) -> bool {
    let (least, most) = step.kind.inputs();
    let below = match fault {
        Fault::OwnLayerAllowed => n + 1,
        Fault::LaterLayersRefused => n.min(16),
        _ => n,
    };
    let allowed = |input: &Input| !matches!(input, Input::Layer(layer) if *layer >= below);
    let used = used(step);
    used.len() < least || used.len() > most || !used.iter().all(allowed)
}

/// "A table of 0 or more than 16 entries is 16", a `discrete` one too.
fn entries_are_wrong(kind: Kind, fault: Fault) -> bool {
    let Kind::Curve(transfers) = kind else { return false };
    let least = fault.choose(Fault::NoEntryAllowed, 1, 0);
    let most = MOST_ENTRIES + fault.choose(Fault::SeventeenEntriesAllowed, 0, 1);
    let counted = &transfers[..fault.choose(Fault::EntriesOfRedOnly, 4, 1)];
    let passed = |transfer: &Transfer| fault.is(Fault::DiscreteUncounted) && matches!(transfer, Transfer::Discrete(_));
    let wrong = |transfer: &Transfer| transfer.entries().is_some_and(|count| count < least || count > most);
    counted.iter().any(|transfer| wrong(transfer) && !passed(transfer))
}

/// "17 .. for a bad order .. or target": "orders 1 to 5 each way", "the target lies inside the kernel".
fn kernel_is_wrong(kind: Kind, fault: Fault) -> bool {
    let Kind::Convolve(shape) = kind else { return false };
    let Convolution { columns, rows, column, row, .. } = shape;
    let most = MOST_ORDER + fault.choose(Fault::SixthOrderAllowed, 0, 1);
    let order = |order: usize| order == 0 || order > most;
    let target = |target: usize, order: usize| target >= order + fault.choose(Fault::TargetAtEnd, 0, 1);
    order(columns)
        || order(rows) && !fault.is(Fault::OrderDownUnchecked)
        || target(column, columns)
        || target(row, rows) && !fault.is(Fault::TargetDownUnchecked)
}

/// "17 also for a given divisor whose units are 0."
fn divisor_is_wrong(step: &Step, units: &[i64], fault: Fault) -> bool {
    let Kind::Convolve(shape @ Convolution { divided: true, .. }) = step.kind else { return false };
    match fault {
        Fault::ZeroDivisorIsAbsent => false,
        Fault::DivisorJudgedExactly => {
            matches!(step.numbers[shape.values()], Number::Decimal(0) | Number::Single(0 | 0x8000_0000))
        }
        _ => units[shape.values()] == 0,
    }
}

/// Each number in its listed order through 8 to 11.
fn numbers(step: &Step, fault: Fault) -> Result<Vec<i64>, u8> {
    let judged: Vec<Result<i64, u8>> =
        step.numbers.iter().zip(step.kind.ranges()).map(|(number, range)| judge(*number, range, fault)).collect();
    let least = judged.iter().filter_map(|one| one.err()).min();
    match least {
        Some(number) if fault.is(Fault::NumbersCheckByCheck) => Err(number),
        _ => judged.into_iter().collect(),
    }
}

/// Whether a box of the blur holds 61 bytes, the most there are.
fn is_widest(kind: Kind, units: &[i64]) -> bool {
    kind == Kind::Blur && units.iter().any(|units| box_size(*units, Fault::None) == 60)
}

/// Within a step 7, then 16 or 17, then each number through 8 to 11, then 17 for a divisor of 0, then 13.
fn step(n: usize, step: &Step, call: &Call, fault: Fault) -> Result<Checked, u8> {
    let leaves = leaves(step.region, call.width, call.height, fault.is(Fault::EmptyRegionAnywhere));
    if leaves && fault.is(Fault::ThirteenFirst) {
        return Err(13);
    }
    let (entries, kernel) = (entries_are_wrong(step.kind, fault), kernel_is_wrong(step.kind, fault));
    if entries && fault.is(Fault::SixteenBeforeSeven) {
        return Err(16);
    }
    if kernel && fault.is(Fault::SeventeenBeforeSeven) {
        return Err(17);
    }
    if inputs_are_wrong(n, step, fault) {
        return Err(7);
    }
    if entries && !fault.is(Fault::SixteenAfterNumbers) {
        return Err(16);
    }
    if kernel && !fault.is(Fault::SeventeenAfterNumbers) {
        return Err(17);
    }
    if leaves && fault.is(Fault::ThirteenBeforeNumbers) {
        return Err(13);
    }
    if fault.is(Fault::DivisorBeforeBias) && divisor_is_first(step) {
        return Err(17);
    }
    let mut units = numbers(step, fault)?;
    if entries {
        return Err(16);
    }
    if kernel {
        return Err(17);
    }
    if leaves && fault.is(Fault::ThirteenBeforeDivisor) {
        return Err(13);
    }
    if divisor_is_wrong(step, &units, fault) {
        return Err(17);
    }
    if fault.is(Fault::TwelveGiven) && is_widest(step.kind, &units) {
        return Err(12);
    }
    if leaves {
        return Err(13);
    }
    let Step { mut kind, region, colour, space, .. } = *step;
    if fault.is(Fault::AbsentDivisorExact) {
        kind = with_exact_divisor(step, &mut units);
    }
    Ok(Checked { kind, region, inputs: used(step).to_vec(), colour, units, space })
}

/// For a fault: whether a given divisor of 0 units comes before any number that is refused but the bias.
fn divisor_is_first(step: &Step) -> bool {
    let mut without_bias = step.clone();
    without_bias.numbers.pop();
    numbers(&without_bias, Fault::None).is_ok_and(|units| divisor_is_wrong(step, &units, Fault::None))
}

/// For a fault: an absent divisor given, from exact values.
fn with_exact_divisor(step: &Step, units: &mut Vec<i64>) -> Kind {
    let Kind::Convolve(shape) = step.kind else { return step.kind };
    let sum = exact_sum(&step.numbers[..shape.values()]).filter(|_| !shape.divided);
    let Some(sum) = sum else { return step.kind };
    units.insert(shape.values(), if sum == 0 { UNIT } else { sum });
    Kind::Convolve(Convolution { divided: true, ..shape })
}

/// The first pixel with a colour above its alpha, counted from 0 in its buffer.
fn bad_pixel(bytes: &[u8], fault: Fault) -> Option<usize> {
    let checked = fault.choose(Fault::BlueUnchecked, 3, 2);
    bytes.chunks_exact(4).position(|p| p[..checked].iter().any(|colour| *colour > p[3]))
}

/// Check 14: "source first, then in a redraw the workspace".
fn pixels(call: &Call, fault: Fault) -> Result<(), Answer> {
    let source = bad_pixel(call.source, fault);
    let workspace =
        call.rect.and_then(|_| bad_pixel(call.workspace, fault)).filter(|_| !fault.is(Fault::WorkspaceUnchecked));
    let in_layer = |pixel: usize| fault.choose(Fault::PixelInItsLayer, pixel, pixel % (call.width * call.height));
    let (first, second) = fault.choose(Fault::WorkspaceScannedFirst, (source, workspace), (workspace, source));
    match first.or(second) {
        Some(pixel) => Err(Answer::refused(14, in_layer(pixel))),
        None => Ok(()),
    }
}

/// The steps as they are to be worked, or the refusal.
pub fn check(call: &Call, fault: Fault) -> Result<Vec<Checked>, Answer> {
    buffers(call, fault)?;
    if fault.is(Fault::PixelsBeforeSteps) {
        pixels(call, fault)?;
    }
    let place = |n: usize| fault.choose(Fault::StepsFromOne, n, n + 1);
    if fault.is(Fault::InputsOfAllStepsFirst) {
        if let Some(n) = (0..call.steps.len()).find(|n| inputs_are_wrong(*n, &call.steps[*n], fault)) {
            return Err(Answer::refused(7, n));
        }
    }
    let checked = |n: usize| step(n, &call.steps[n], call, fault).map_err(|number| Answer::refused(number, place(n)));
    let steps = (0..call.steps.len()).map(checked).collect::<Result<Vec<_>, _>>()?;
    pixels(call, fault)?;
    Ok(steps)
}
