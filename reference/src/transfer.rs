//! Component transfer (RULES 5.13): for each channel a map from byte to byte, in exact fractions by document 004's formulas.

use crate::fault::Fault;
use crate::number::{Range, UNIT};
use crate::pixel::{byte, limited, premultiply, unpremultiply, Pixel};
use crate::ratio::Ratio;
use crate::step::{COEFFICIENT, ZERO_TO_ONE};

/// "Tables have 1 to 16 entries."
pub const MOST_ENTRIES: usize = 16;

/// "Per channel identity, table, discrete or linear", lists of entries with their count.
#[derive(Clone, Copy, PartialEq, Eq, Debug)]
pub enum Transfer {
    Identity,
    Table(usize),
    Discrete(usize),
    Linear,
}

/// One for each of R, G, B and A.
pub type Transfers = [Transfer; 4];

impl Transfer {
    /// Its numbers in order: "each 0 to 1; slope and intercept lie within −256 to 256".
    pub fn numbers(self) -> (Range, usize) {
        match self {
            Transfer::Identity => (ZERO_TO_ONE, 0),
            Transfer::Table(entries) | Transfer::Discrete(entries) => (ZERO_TO_ONE, entries),
            Transfer::Linear => (COEFFICIENT, 2),
        }
    }

    /// Its word in text.
    pub fn word(self) -> &'static str {
        match self {
            Transfer::Identity => "identity",
            Transfer::Table(_) => "table",
            Transfer::Discrete(_) => "discrete",
            Transfer::Linear => "linear",
        }
    }

    /// How many entries it says that it has, where it has any.
    pub fn entries(self) -> Option<usize> {
        match self {
            Transfer::Table(entries) | Transfer::Discrete(entries) => Some(entries),
            Transfer::Identity | Transfer::Linear => None,
        }
    }
}

fn ratio(over: usize, under: usize) -> Ratio {
    Ratio::new(over as i128, under as i128)
}

/// "For a value C < 1 find k such that: k/n ≤ C < (k+1)/n", all times 255·n. Nothing for C = 1.
fn part(c: u8, n: usize, fault: Fault) -> Option<usize> {
    let (c, one) = (usize::from(c) * n, fault.choose(Fault::CurvePartBy256, 255, 256));
    (0..n).find(|k| k * one <= c && c < (k + 1) * one)
}

/// "The table has n + 1 values. C′ = v_k + (C − k/n)·n·(v_(k+1) − v_k). If C = 1 then C′ = v_n." "A table of one entry is
/// constant."
fn table(v: &[Ratio], c: u8, fault: Fault) -> Ratio {
    let n = v.len() - fault.choose(Fault::TablePartTooMany, 1, 0);
    let at = |k: usize| v[k.min(v.len() - 1)];
    match part(c, n, fault) {
        Some(k) => at(k) + (ratio(c.into(), 255) - ratio(k, n)) * ratio(n, 1) * (at(k + 1) - at(k)),
        None => at(n),
    }
}

/// "A list of n values. C′ = v_k. If C = 1 then C′ = v_(n−1)."
fn discrete(v: &[Ratio], c: u8, fault: Fault) -> Ratio {
    let last = v.len() - 1;
    match fault {
        Fault::DiscreteInterpolated => table(v, c, fault),
        Fault::DiscretePartTooFew => v[part(c, last, fault).unwrap_or(last)],
        Fault::DiscreteEndForgotten => part(c, v.len(), fault).map_or(Ratio::whole(0), |k| v[k]),
        _ => part(c, v.len(), fault).map_or(v[last], |k| v[k]),
    }
}

/// "C′ = slope·C + intercept."
fn linear(v: &[Ratio], c: u8, fault: Fault) -> Ratio {
    let intercept = v[1] * Ratio::new(fault.choose(Fault::InterceptTimes256, 255, 256), 255);
    v[0] * ratio(c.into(), 255) + intercept
}

/// A byte's 255th parts "rounded once, halves up, limited to 0..255".
fn rounded(c: Ratio, fault: Fault) -> u8 {
    let exact = c * Ratio::whole(255);
    let up = (exact + Ratio::new(1, 2)).down();
    let halfway = exact + Ratio::new(1, 2) == Ratio::whole(up);
    let nearest = match fault {
        Fault::CurveDown => exact.down(),
        Fault::CurveHalvesDown if halfway => up - 1,
        Fault::CurveHalvesEven if halfway => up - up.rem_euclid(2),
        _ => up,
    };
    byte(fault.choose(Fault::CurveWraps, limited(nearest), nearest))
}

/// A channel's new byte; the numbers in units.
pub fn remapped(transfer: Transfer, units: &[i64], c: u8, fault: Fault) -> u8 {
    let value = |units: &i64| Ratio::new((*units).into(), UNIT.into());
    let entry = |units: &i64| match fault {
        Fault::EntriesToBytes => Ratio::new(rounded(value(units), fault).into(), 255),
        _ => value(units),
    };
    let entries: Vec<Ratio> = units.iter().map(entry).collect();
    let same = entries.len() == 1 && fault.is(Fault::OneEntryIsIdentity);
    match transfer {
        Transfer::Linear => rounded(linear(&units.iter().map(value).collect::<Vec<_>>(), c, fault), fault),
        // No entries are refused with 16; a seeded fault lets them through.
        Transfer::Table(_) | Transfer::Discrete(_) if entries.is_empty() || same => c,
        Transfer::Table(_) => rounded(table(&entries, c, fault), fault),
        Transfer::Discrete(_) => rounded(discrete(&entries, c, fault), fault),
        Transfer::Identity => c,
    }
}

/// What each byte of each channel becomes.
pub type Maps = [[u8; 256]; 4];

/// The maps of a step, from its numbers in their listed order.
pub fn maps(transfers: Transfers, units: &[i64], fault: Fault) -> Maps {
    let mut from = 0;
    let mut maps = transfers.map(|transfer| {
        let own = &units[from..from + transfer.numbers().1];
        from += own.len();
        std::array::from_fn(|c| remapped(transfer, own, c as u8, fault))
    });
    match fault {
        Fault::RedAndBlueExchanged => maps.swap(0, 2),
        Fault::RedForAllColours => [maps[1], maps[2]] = [maps[0]; 2],
        Fault::AlphaUncurved => maps[3] = std::array::from_fn(|c| c as u8),
        _ => {}
    }
    maps
}

/// "On unpremultiplied values, alpha included; colours are premultiplied by the new alpha."
pub fn curve(maps: &Maps, p: Pixel, fault: Fault) -> Pixel {
    if p[3] == 0 && fault.is(Fault::TransparentUncurved) {
        return p;
    }
    let (old, new) = (i128::from(p[3]), maps[3][usize::from(p[3])]);
    let by = fault.choose(Fault::CurvedByOldAlpha, i128::from(new), old);
    let [r, g, b] = [0, 1, 2].map(|i| {
        let stored = i128::from(p[i]);
        let straight = fault.choose(Fault::CurveOnPremultiplied, unpremultiply(stored, old, fault), stored);
        // A seeded fault may leave one above 255.
        byte(premultiply(maps[i][straight.min(255) as usize].into(), by, fault))
    });
    [r, g, b, new]
}
