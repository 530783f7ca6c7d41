//! The fields of a `conv` line after its input (RULES 9.3): "orders, kernel values, divisor, bias, target, preserve-alpha
//! (`true` or `false`), and the edge mode", "an absent divisor as an empty field".

use crate::convolve::{Convolution, Edge, EDGES, MOST_ORDER};
use crate::fault::Fault;
use crate::line::whole;

/// Kind, x, y, width, height, input.
const BEFORE: usize = 6;

/// "A bad order (in text 15)."
fn order(field: &[u8], fault: Fault) -> Option<usize> {
    let least = fault.choose(Fault::NoOrderRead, 1, 0);
    let most = MOST_ORDER + fault.choose(Fault::SixthOrderRead, 0, 1);
    whole(field, fault).filter(|order| (least..=most).contains(order))
}

fn is_word(field: &[u8], word: &str, fault: Fault) -> bool {
    field == word.as_bytes() || fault.is(Fault::ChoiceOfAnyCase) && field.eq_ignore_ascii_case(word.as_bytes())
}

fn preserve(field: &[u8], fault: Fault) -> Option<bool> {
    let says =
        |word: &str, digit: &[u8]| is_word(field, word, fault) || fault.is(Fault::DigitForTrue) && field == digit;
    let said = match (says("true", b"1"), says("false", b"0")) {
        (true, _) => true,
        (_, true) => false,
        _ => return None,
    };
    Some(said != fault.is(Fault::TrueIsFalse))
}

fn edge(field: &[u8], fault: Fault) -> Option<Edge> {
    if field.is_empty() && fault.is(Fault::EmptyEdgeRead) {
        return Some(Edge::Duplicate);
    }
    EDGES.iter().find(|(word, _)| is_word(field, word, fault)).map(|(_, edge)| *edge)
}

/// Divisor and bias: the fields that are numbers, and whether a divisor is given.
fn divisor_and_bias<'a>(divisor: &'a [u8], bias: &'a [u8], fault: Fault) -> (bool, Vec<&'a [u8]>) {
    let bias = if bias.is_empty() && fault.is(Fault::EmptyBiasRead) { b"0" } else { bias };
    match fault {
        Fault::EmptyDivisorIsZero if divisor.is_empty() => (true, vec![b"0", bias]),
        Fault::DivisorAfterBias if !divisor.is_empty() => (true, vec![bias, divisor]),
        _ if divisor.is_empty() => (false, vec![bias]),
        _ => (true, vec![divisor, bias]),
    }
}

/// A `conv` line's shape, and its fields without orders, choices and an empty divisor: such as another kind's line has, its
/// numbers after the input, and what may stand behind them.
pub fn convolution<'a>(fields: &[&'a [u8]], fault: Fault) -> Option<(Convolution, Vec<&'a [u8]>)> {
    let mut plain = fields.get(..BEFORE)?.to_vec();
    let mut orders = [order(fields.get(BEFORE)?, fault)?, order(fields.get(BEFORE + 1)?, fault)?];
    if fault.is(Fault::OrderDownFirst) {
        orders.reverse();
    }
    let [columns, rows] = orders;
    let from = BEFORE + 2;
    let values = fields.get(from..from + columns * rows)?;
    plain.extend(values);
    let [divisor, bias, across, down, kept, mode] = *fields.get(from + values.len()..)?.first_chunk()?;
    let (divided, numbers) = divisor_and_bias(divisor, bias, fault);
    plain.extend(numbers);
    plain.extend(&fields[from + values.len() + 6..]);
    let target = [whole(across, fault)?, whole(down, fault)?];
    let [column, row] = fault.choose(Fault::TargetDownFirst, target, [target[1], target[0]]);
    if fault.is(Fault::TargetIsFifteen) && (column >= columns || row >= rows) {
        return None;
    }
    let shape =
        Convolution { columns, rows, divided, column, row, preserve: preserve(kept, fault)?, edge: edge(mode, fault)? };
    Some((shape, plain))
}
