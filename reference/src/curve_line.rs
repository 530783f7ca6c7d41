//! The fields of a `curve` line after its input (RULES 9.3): "for R, G, B, A the kind's word, an entry count for tables, the
//! numbers".

use crate::fault::Fault;
use crate::line::{number, space, whole};
use crate::transfer::{Transfer, Transfers, MOST_ENTRIES};

/// Kind, x, y, width, height, input.
const BEFORE: usize = 6;

/// The transfer that a word names, with a count of 0 where it has entries.
fn named(field: &[u8], fault: Fault) -> Option<Transfer> {
    let all = [Transfer::Identity, Transfer::Table(0), Transfer::Discrete(0), Transfer::Linear];
    let same = |word: &str| {
        let any_case = fault.is(Fault::TransferOfAnyCase) && field.eq_ignore_ascii_case(word.as_bytes());
        field == word.as_bytes() || any_case
    };
    if field == b"gamma" && fault.is(Fault::GammaIsIdentity) {
        return Some(Transfer::Identity);
    }
    all.into_iter().find(|transfer| same(transfer.word()))
}

/// "A table of 0 or more than 16 entries .. in text such a count is 15 at its line."
fn entries(field: &[u8], fault: Fault) -> Option<usize> {
    let least = fault.choose(Fault::NoEntryRead, 1, 0);
    let most = MOST_ENTRIES + fault.choose(Fault::SeventeenEntriesRead, 0, 1);
    whole(field, fault).filter(|count| (least..=most).contains(count))
}

/// One channel from the field at `at` on: its transfer, and how many fields its word and its count are.
fn channel(fields: &[&[u8]], at: usize, fault: Fault) -> Option<(Transfer, usize)> {
    match named(fields.get(at)?, fault)? {
        Transfer::Table(_) => Some((Transfer::Table(entries(fields.get(at + 1)?, fault)?), 2)),
        Transfer::Discrete(_) => Some((Transfer::Discrete(entries(fields.get(at + 1)?, fault)?), 2)),
        one => Some((one, 1)),
    }
}

/// A `curve` line's transfers, and its fields without their words and counts: such as another kind's line has, its numbers
/// after the input, and what may stand behind them.
pub fn transfers<'a>(fields: &[&'a [u8]], fault: Fault) -> Option<(Transfers, Vec<&'a [u8]>)> {
    let mut plain = fields.get(..BEFORE)?.to_vec();
    let mut at = BEFORE;
    let mut all = [Transfer::Identity; 4];
    for (n, transfer) in all.iter_mut().enumerate() {
        let absent = fields.get(at).is_none_or(|field| space(field, Fault::None).is_some() && at + 1 == fields.len());
        if n == 3 && absent && fault.is(Fault::AlphaMayBeAbsent) {
            break;
        }
        let (one, head) = channel(fields, at, fault)?;
        let (from, count) = (at + head, one.numbers().1);
        let given = |field: &&[u8]| number(field, Fault::None).is_some();
        let short = one == Transfer::Linear && !fields.get(from + 1).is_some_and(given);
        if short && fault.is(Fault::InterceptMayBeAbsent) {
            plain.extend([*fields.get(from)?, b"0"]);
            at = from + 1;
        } else {
            plain.extend(fields.get(from..from + count)?);
            at = from + count;
        }
        *transfer = one;
    }
    plain.extend(&fields[at..]);
    Some((all, plain))
}
