//! Numbers of a step: exact value, refusals 8 to 11, rounding to units.

use crate::fault::Fault;
use crate::wide::Wide;
use std::cmp::Ordering;

/// "Rounded to the nearest 1/65,536 .. the result, a whole number, is called units."
pub const UNIT: i64 = 65_536;

/// "Either a decimal in ten-thousandths or a single-precision value", the single by its bits.
#[derive(Clone, Copy, PartialEq, Eq, Debug)]
pub enum Number {
    Decimal(i64),
    Single(u32),
}

/// What is allowed for a number, bounds included.
#[derive(Clone, Copy, PartialEq, Eq, Debug)]
pub struct Range {
    pub low: i64,
    pub high: i64,
    pub whole: bool,
}

/// "Its exact value is a fraction." A minus before 0 means nothing.
#[derive(Clone, Copy)]
struct Fraction {
    minus: bool,
    over: Wide,
    under: Wide,
}

impl Fraction {
    fn below_zero(self) -> bool {
        self.minus && self.over > Wide::ZERO
    }

    fn compare(self, bound: i64) -> Ordering {
        let sizes = self.over.cmp(&self.under.times(bound.unsigned_abs()));
        match (self.below_zero(), bound < 0) {
            (false, false) => sizes,
            (true, true) => sizes.reverse(),
            (true, false) => Ordering::Less,
            (false, true) => Ordering::Greater,
        }
    }

    fn is_whole(self) -> bool {
        self.over.divided(self.under).1 == Wide::ZERO
    }

    /// "The nearest 1/65,536", where two are as near the even one (RULES 3.4). The sign plays no part in it.
    fn rounded(self, fault: Fault) -> Fraction {
        let (below, rest) = self.over.times(UNIT as u64).divided(self.under);
        let odd = below.divided(Wide::new(2)).1 == Wide::new(1);
        let halfway = match fault {
            Fault::TiesAway => true,
            Fault::TiesUp => !self.minus,
            _ => odd,
        };
        let up = match rest.plus(rest).cmp(&self.under) {
            Ordering::Less => false,
            Ordering::Equal => halfway,
            Ordering::Greater => true,
        };
        let next = up && !fault.is(Fault::UnitsRoundedDown);
        let size = if next { below.plus(Wide::new(1)) } else { below };
        Fraction { minus: self.minus, over: size, under: Wide::new(UNIT as u128) }
    }
}

/// The exact value, or nothing for what "is not a number, or infinite".
fn exact(number: Number, fault: Fault) -> Option<Fraction> {
    match number {
        Number::Decimal(tenthousandths) => Some(Fraction {
            minus: tenthousandths < 0,
            over: Wide::new(u128::from(tenthousandths.unsigned_abs())),
            under: Wide::new(10_000),
        }),
        Number::Single(bits) => {
            let minus = bits >> 31 == 1;
            let exponent = bits >> 23 & 255;
            let digits = bits & 0x7f_ffff;
            let infinite = exponent == 255 && digits == 0;
            if exponent == 255 && !(infinite && fault.is(Fault::InfinityIsNumber)) {
                return None;
            }
            let hidden = if exponent > 0 || fault.is(Fault::SubnormalHasHiddenBit) { 1 << 23 } else { 0 };
            // The value is (hidden + digits) · 2^(power − 150).
            let power = exponent.max(1);
            let over = Wide::new(u128::from(hidden + digits)).shifted(power.saturating_sub(150));
            let under = Wide::new(1).shifted(150_u32.saturating_sub(power));
            Some(Fraction { minus: minus && !fault.is(Fault::SingleSignLost), over, under })
        }
    }
}

/// The number's units, or the refusal 8, 9, 10 or 11.
/// "Range, sign and wholeness are judged on that fraction. Only then is it rounded."
pub fn judge(number: Number, range: Range, fault: Fault) -> Result<i64, u8> {
    let value = exact(number, fault).ok_or(8)?;
    let rounded = value.rounded(fault);
    let signed = fault.choose(Fault::SignAfterRounding, value, rounded);
    let ranged = fault.choose(Fault::RangeAfterRounding, value, rounded);
    let wholly = fault.choose(Fault::WholeAfterRounding, value, rounded);

    let minus_zero = fault.is(Fault::MinusZeroIsNegative) && value.minus && number != Number::Decimal(0);
    let nine = range.low == 0 && (signed.below_zero() || minus_zero);
    let low = ranged.compare(range.low) == Ordering::Less && !(fault.is(Fault::SignAfterRounding) && range.low == 0);
    let high = ranged.compare(range.high);
    let ten = low || high == Ordering::Greater || fault.is(Fault::UpperBoundExcluded) && high == Ordering::Equal;
    let eleven = range.whole && !wholly.is_whole();

    let found = [(9, nine), (10, ten), (11, eleven)];
    let order = match fault {
        Fault::TenBeforeNine => [1, 0, 2],
        Fault::ElevenBeforeTen => [0, 2, 1],
        _ => [0, 1, 2],
    };
    for check in order {
        if found[check].1 {
            return Err(found[check].0);
        }
    }
    let size = rounded.over.narrow().and_then(|size| i64::try_from(size).ok()).expect("within its range");
    Ok(if value.minus { -size } else { size })
}
