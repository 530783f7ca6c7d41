//! Random component transfers, and lines of text that need little chance.

use crate::number::Number;
use crate::random::Random;
use crate::transfer::{Transfer, Transfers, MOST_ENTRIES};

/// How many entries: few, as many as there may be, any; of a wild one also none or one too many.
fn entries(random: &mut Random, wild: bool) -> usize {
    if wild && random.once_in(16) {
        return random.pick(&[0, MOST_ENTRIES + 1]);
    }
    match random.below(3) {
        0 => random.pick(&[1, 2, MOST_ENTRIES]),
        1 => 2 + random.below(4),
        _ => 1 + random.below(MOST_ENTRIES),
    }
}

fn transfer(random: &mut Random, wild: bool) -> Transfer {
    match random.below(7) {
        0 => Transfer::Identity,
        1 | 2 => Transfer::Table(entries(random, wild)),
        3 | 4 => Transfer::Discrete(entries(random, wild)),
        _ => Transfer::Linear,
    }
}

pub fn transfers(random: &mut Random, wild: bool) -> Transfers {
    [(); 4].map(|()| transfer(random, wild))
}

/// A number of halves.
fn halves(random: &mut Random, low: i64, high: i64) -> Number {
    Number::Decimal(5_000 * random.within(low, high))
}

/// Makes the numbers such that they show: entries far apart, lines that most bytes stay inside of, and many results
/// halfway between two bytes.
pub fn plain(random: &mut Random, transfers: Transfers, numbers: &mut [Number]) {
    let mut from = 0;
    for transfer in transfers {
        let own = &mut numbers[from..from + transfer.numbers().1];
        from += own.len();
        if transfer == Transfer::Linear {
            own.copy_from_slice(&[halves(random, -4, 4), halves(random, -2, 2)]);
        } else if random.once_in(2) {
            own.iter_mut().for_each(|entry| *entry = halves(random, 0, 2));
        }
    }
}

/// What may stand after the input of a `curve` line, and what may not, with spaces for tabs; `*` stands for 16 numbers.
const LISTED: [&str; 44] = [
    "identity identity identity identity",
    "identity identity identity identity linear",
    "identity identity identity identity srgb",
    "identity identity identity identity identity",
    "identity identity identity",
    "identity identity identity srgb",
    "identity identity identity linear",
    "identity identity linear linear 1 0",
    "identity identity identity linear 1",
    "identity identity identity linear 1 0",
    "identity identity identity linear 1 0 linear",
    "identity identity identity linear 1 0 srgb",
    "identity identity identity linear 1 0 0",
    "identity identity identity linear 1 linear",
    "linear 1 identity identity identity",
    "linear 2 -0.5 identity identity identity srgb",
    "linear 2 -0.5 linear 1 0 linear 1 0 linear 1 0",
    "linear 256 -256 linear -256 256 linear 0 0.5 linear 0 1",
    "linear 256.0001 0 identity identity identity",
    "linear 0 -256.0001 identity identity identity",
    "linear x7fc00000 0 identity identity identity",
    "Linear 1 0 identity identity identity",
    "IDENTITY identity identity identity",
    "gamma identity identity identity",
    "gamma 1 1 0 identity identity identity",
    "table identity identity identity",
    "table 0 identity identity identity",
    "table 1 0.5 identity identity identity",
    "table 1 identity identity identity",
    "table 01 0.5 identity identity identity",
    "table 1.0 0.5 identity identity identity",
    "table 2 0 1 table 2 1 0 discrete 2 0 1 discrete 2 0 1 srgb",
    "table 2 0 identity identity identity",
    "table 2 0 1 1 identity identity identity",
    "table 2 -0.0001 1 identity identity identity",
    "table 2 1 1.0001 identity identity identity",
    "table 16 * identity identity identity",
    "table 17 * 1 identity identity identity",
    "table 16 * table 16 * discrete 16 * discrete 16 * linear",
    "discrete 0 identity identity identity srgb",
    "identity discrete 0 identity identity",
    "identity identity identity discrete 17 * 0",
    "identity identity identity discrete 16 *",
    "identity identity identity table 9999 *",
];

/// Step lines on one pixel, without their line feeds.
pub fn lines() -> impl Iterator<Item = Vec<u8>> {
    let numbers = (0..16).map(|n| format!("0.{n:02}")).collect::<Vec<_>>().join(" ");
    let line = move |rest: &&str| format!("curve 0 0 1 1 src {}", rest.replace('*', &numbers)).replace(' ', "\t");
    LISTED.iter().map(line).map(String::into_bytes)
}
