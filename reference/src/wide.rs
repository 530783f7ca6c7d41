//! Natural numbers below 2^256: room for the exact value of every single and for what is compared with it.

#[derive(Clone, Copy, PartialEq, Eq, PartialOrd, Ord, Debug)]
pub struct Wide {
    high: u128,
    low: u128,
}

impl Wide {
    pub const ZERO: Wide = Wide::new(0);

    pub const fn new(low: u128) -> Wide {
        Wide { high: 0, low }
    }

    pub fn plus(self, other: Wide) -> Wide {
        let (low, carry) = self.low.overflowing_add(other.low);
        Wide { high: self.high + other.high + u128::from(carry), low }
    }

    /// `other` is not above `self`.
    pub fn minus(self, other: Wide) -> Wide {
        let (low, borrow) = self.low.overflowing_sub(other.low);
        Wide { high: self.high - other.high - u128::from(borrow), low }
    }

    /// Times 2 to the power `places`.
    pub fn shifted(self, places: u32) -> Wide {
        (0..places).fold(self, |n, _| n.plus(n))
    }

    pub fn times(self, factor: u64) -> Wide {
        (0..64).rev().fold(Wide::ZERO, |sum, bit| {
            let twice = sum.plus(sum);
            if factor >> bit & 1 == 1 {
                twice.plus(self)
            } else {
                twice
            }
        })
    }

    /// Quotient, rounded down, and remainder, bit by bit.
    pub fn divided(self, by: Wide) -> (Wide, Wide) {
        let (mut quotient, mut rest) = (Wide::ZERO, Wide::ZERO);
        for bit in (0..256).rev() {
            quotient = quotient.plus(quotient);
            rest = rest.plus(rest).plus(Wide::new(self.bit(bit)));
            if rest >= by {
                rest = rest.minus(by);
                quotient = quotient.plus(Wide::new(1));
            }
        }
        (quotient, rest)
    }

    fn bit(self, bit: u32) -> u128 {
        if bit < 128 {
            self.low >> bit & 1
        } else {
            self.high >> (bit - 128) & 1
        }
    }

    /// The number itself, where it is below 2^128.
    pub fn narrow(self) -> Option<u128> {
        (self.high == 0).then_some(self.low)
    }
}

#[cfg(test)]
mod tests {
    use super::*;

    #[test]
    fn agrees_with_narrow_arithmetic() {
        for (a, b) in [(0u128, 1u128), (1 << 100, 3), (u128::MAX >> 1, 12_345_678_901), (999, 1000), (1 << 64, 1 << 32)]
        {
            assert_eq!(Wide::new(a).divided(Wide::new(b)), (Wide::new(a / b), Wide::new(a % b)));
            assert_eq!(Wide::new(a).plus(Wide::new(b)), Wide::new(a + b));
            assert_eq!(Wide::new(b).times(1000), Wide::new(b * 1000));
        }
    }

    #[test]
    fn carries_and_borrows() {
        let top = Wide::new(u128::MAX).plus(Wide::new(1));
        assert_eq!(top.narrow(), None);
        assert_eq!(top, Wide::new(1).shifted(128));
        assert_eq!(top.minus(Wide::new(1)), Wide::new(u128::MAX));
        assert_eq!(Wide::new(5).shifted(200).divided(Wide::new(1).shifted(199)), (Wide::new(10), Wide::ZERO));
    }
}
