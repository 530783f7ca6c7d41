//! One line of a text (RULES 9.2 to 9.5): its fields, and the step, row or canvas that they are.

use crate::conv_line::convolution;
use crate::curve_line::transfers;
use crate::fault::Fault;
use crate::number::Number;
use crate::space::{Space, SPACES};
use crate::step::{Input, Kind, Region, Step, KINDS};
use crate::transfer::Transfer;

/// "`canvas` W H (0 to 16 each)."
pub const LONGEST_TEXT_SIDE: usize = 16;

/// "Fields parted by one tab."
fn fields(line: &[u8]) -> Vec<&[u8]> {
    line.split(|byte| *byte == b'\t').collect()
}

fn digits(field: &[u8], most: usize) -> Option<i64> {
    let fits = (1..=most).contains(&field.len()) && field.iter().all(u8::is_ascii_digit);
    fits.then(|| field.iter().fold(0, |n, digit| 10 * n + i64::from(digit - b'0')))
}

fn without_leading_zeros(field: &[u8], most: usize, fault: Fault) -> Option<i64> {
    let leading = field.len() > 1 && field[0] == b'0';
    digits(field, most).filter(|_| !leading || fault.is(Fault::LeadingZeros))
}

/// "Whole fields have 1 to 4 digits, no sign and no leading zeros."
pub fn whole(field: &[u8], fault: Fault) -> Option<usize> {
    without_leading_zeros(field, 4, fault).map(|n| n as usize)
}

/// Lower-case hex digits, exactly as many as asked for.
fn hex(field: &[u8], count: usize, fault: Fault) -> Option<u32> {
    let digit = |byte: &u8| match byte {
        b'0'..=b'9' => Some(u32::from(byte - b'0')),
        b'a'..=b'f' => Some(u32::from(byte - b'a') + 10),
        b'A'..=b'F' if fault.is(Fault::UpperCaseHex) => Some(u32::from(byte - b'A') + 10),
        _ => None,
    };
    if field.len() != count {
        return None;
    }
    field.iter().try_fold(0, |n, byte| Some(n << 4 | digit(byte)?))
}

/// "An optional minus, 1 to 5 digits without leading zeros, optionally a point and 1 to 4 digits; or `x` and eight
/// lower-case hex digits, the bits of a single."
pub fn number(field: &[u8], fault: Fault) -> Option<Number> {
    if let Some(bits) = field.strip_prefix(b"x") {
        return hex(bits, 8, fault).map(Number::Single);
    }
    let plus = if fault.is(Fault::PlusSign) { field.strip_prefix(b"+") } else { None };
    let (minus, size) = match field.strip_prefix(b"-") {
        Some(rest) => (true, rest),
        None => (false, plus.unwrap_or(field)),
    };
    let (whole, fraction) = match size.iter().position(|byte| *byte == b'.') {
        Some(point) => (&size[..point], Some(&size[point + 1..])),
        None => (size, None),
    };
    let ones = without_leading_zeros(whole, fault.choose(Fault::SixDigits, 5, 6), fault)?;
    let parts = match fraction {
        None => 0,
        Some([]) if fault.is(Fault::BarePoint) => 0,
        Some(fraction) if fraction.len() == 5 && fault.is(Fault::FiveDecimals) => digits(fraction, 5)? / 10,
        Some(fraction) => {
            digits(fraction, 4)? * fault.choose(Fault::DecimalsNotPadded, 10_i64.pow(4 - fraction.len() as u32), 1)
        }
    };
    let size = 10_000 * ones + parts;
    let minus = minus && !(fault.is(Fault::MinusLostBelowOne) && ones == 0);
    Some(Number::Decimal(if minus { -size } else { size }))
}

/// "Inputs: `src`, `alpha` or a step number."
fn input(field: &[u8], fault: Fault) -> Option<Input> {
    match field {
        b"src" => Some(Input::Source),
        b"alpha" => Some(Input::Alpha),
        _ => whole(field, fault).map(Input::Layer),
    }
}

/// "A flood byte above 255 .. is 15."
fn flood_byte(field: &[u8], fault: Fault) -> Option<u8> {
    let value = whole(field, fault)?;
    if fault.is(Fault::FloodByteWraps) {
        Some(value as u8)
    } else {
        u8::try_from(value).ok()
    }
}

/// The word of a working space.
pub fn space(field: &[u8], fault: Fault) -> Option<Space> {
    let same = |word: &str| {
        let any_case = fault.is(Fault::SpaceOfAnyCase) && field.eq_ignore_ascii_case(word.as_bytes());
        let long = fault.is(Fault::SpaceAsInCss) && field == format!("{word}RGB").as_bytes();
        field == word.as_bytes() || any_case || long
    };
    if field.is_empty() && fault.is(Fault::EmptySpace) {
        return Some(Space::Linear);
    }
    SPACES.iter().find(|(word, _)| same(word)).map(|(_, space)| *space)
}

/// How many fields a step of the kind has without its space, and without those that are no numbers in a curve or a
/// convolution; nothing for a merge, which has 6 to 9.
fn fixed_fields(kind: Kind) -> Option<usize> {
    let bytes = if kind == Kind::Flood { 3 } else { 0 };
    (kind != Kind::Merge).then_some(5 + bytes + kind.inputs().0 + kind.ranges().count())
}

/// "An optional last field `srgb` or `linear`; absent now means linear": the space, and the fields before it. A field after
/// the last that the kind has must be one of the words. A merge's last field is the space where it is one of them: no input
/// is so called.
fn spaced<'a, 'b>(kind: Kind, fields: &'a [&'b [u8]], fault: Fault) -> Option<(Space, &'a [&'b [u8]])> {
    let absent = fault.choose(Fault::AbsentIsSrgb, Space::Linear, Space::Srgb);
    let (last, before) = fields.split_last()?;
    if fault.is(Fault::SpaceTwice) && before.last().is_some_and(|field| space(field, fault).is_some()) {
        return spaced(kind, before, Fault::None);
    }
    match fixed_fields(kind) {
        Some(most) if fields.len() == most + 1 => Some((space(last, fault)?, before)),
        Some(_) => Some((absent, fields)),
        None if fault.is(Fault::FourWithoutSpace) && fields.len() == 10 => Some((absent, fields)),
        None => Some(space(last, fault).map_or((absent, fields), |space| (space, before))),
    }
}

/// The kind of a line, and its fields without the words and counts of a curve, the orders and choices of a convolution.
fn kind_of(fields: Vec<&[u8]>, fault: Fault) -> Option<(Kind, Vec<&[u8]>)> {
    let kind = KINDS.iter().find(|(word, _)| word.as_bytes() == fields[0])?.1;
    match kind {
        Kind::Curve(_) => transfers(&fields, fault).map(|(transfers, plain)| (Kind::Curve(transfers), plain)),
        Kind::Convolve(_) => convolution(&fields, fault).map(|(shape, plain)| (Kind::Convolve(shape), plain)),
        kind => Some((kind, fields)),
    }
}

/// "A step is its kind, x, y, width, height, inputs, numbers", and its working space.
pub fn step(line: &[u8], fault: Fault) -> Option<Step> {
    let (kind, fields) = kind_of(fields(line), fault)?;
    let (mut space, fields) = spaced(kind, &fields, fault)?;
    if matches!(kind, Kind::Curve(all) if all.contains(&Transfer::Linear)) && fault.is(Fault::OwnLinearIsSpace) {
        space = Space::Linear;
    }
    if fields.len() < 5 {
        return None;
    }
    let at = |i: usize| whole(fields[i], fault);
    let region = Region { x: at(1)?, y: at(2)?, width: at(3)?, height: at(4)? };
    let rest = &fields[5..];

    let bytes = if kind == Kind::Flood { 3 } else { 0 };
    let inputs = rest.len().checked_sub(bytes + kind.ranges().count())?;
    let (least, most) = kind.inputs();
    let most = if kind == Kind::Merge { most + fault.choose(Fault::FiveMerged, 0, 1) } else { most };
    if inputs < least || inputs > most {
        return None;
    }
    let (inputs, rest) = rest.split_at(inputs);
    let (bytes, numbers) = rest.split_at(bytes);
    let mut colour = [0; 3];
    for (channel, field) in colour.iter_mut().zip(bytes) {
        *channel = flood_byte(field, fault)?;
    }
    Some(Step {
        kind,
        region,
        inputs: inputs.iter().map(|field| input(field, fault)).collect::<Option<_>>()?,
        colour,
        numbers: numbers.iter().map(|field| number(field, fault)).collect::<Option<_>>()?,
        space,
    })
}

/// "`row`, each with W pixels of eight lower-case hex digits."
pub fn row(line: &[u8], width: usize, fault: Fault) -> Option<Vec<u8>> {
    let fields = fields(line);
    let short = fault.is(Fault::ShortRows) && fields.len() < width + 1;
    if fields[0] != b"row" || fields.len() != width + 1 && !short {
        return None;
    }
    let mut bytes = Vec::new();
    for field in &fields[1..] {
        bytes.extend(hex(field, 8, fault)?.to_be_bytes());
    }
    bytes.resize(4 * width, 0);
    Some(bytes)
}

/// "`canvas` W H (0 to 16 each); .. a canvas side above 16 is 15."
pub fn canvas(line: &[u8], fault: Fault) -> Option<(usize, usize)> {
    let fields = fields(line);
    if fields.len() != 3 || fields[0] != b"canvas" {
        return None;
    }
    let side = |field| whole(field, fault).filter(|side| *side <= LONGEST_TEXT_SIDE);
    Some((side(fields[1])?, side(fields[2])?))
}
