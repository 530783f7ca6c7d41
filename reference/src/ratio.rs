//! Fractions of whole numbers, exact.

use std::cmp::Ordering;
use std::ops::{Add, Mul, Sub};

/// `over` / `under`, with `under` above zero; not always in lowest terms.
#[derive(Clone, Copy, Debug)]
pub struct Ratio {
    over: i128,
    under: i128,
}

impl Ratio {
    pub fn new(over: i128, under: i128) -> Ratio {
        assert!(under > 0);
        Ratio { over, under }
    }

    pub fn whole(n: i128) -> Ratio {
        Ratio::new(n, 1)
    }

    /// The largest whole number that is not above it.
    pub fn down(self) -> i128 {
        self.over.div_euclid(self.under)
    }
}

impl Add for Ratio {
    type Output = Ratio;

    fn add(self, other: Ratio) -> Ratio {
        Ratio::new(self.over * other.under + other.over * self.under, self.under * other.under)
    }
}

impl Sub for Ratio {
    type Output = Ratio;

    fn sub(self, other: Ratio) -> Ratio {
        self + Ratio::new(-other.over, other.under)
    }
}

impl Mul for Ratio {
    type Output = Ratio;

    fn mul(self, other: Ratio) -> Ratio {
        Ratio::new(self.over * other.over, self.under * other.under)
    }
}

impl PartialEq for Ratio {
    fn eq(&self, other: &Ratio) -> bool {
        self.partial_cmp(other) == Some(Ordering::Equal)
    }
}

impl PartialOrd for Ratio {
    fn partial_cmp(&self, other: &Ratio) -> Option<Ordering> {
        Some((self.over * other.under).cmp(&(other.over * self.under)))
    }
}

#[cfg(test)]
mod tests {
    use super::Ratio;

    #[test]
    fn sums_products_and_order() {
        let (half, third) = (Ratio::new(1, 2), Ratio::new(2, 6));
        assert_eq!(half + third, Ratio::new(5, 6));
        assert_eq!(third - half, Ratio::new(-1, 6));
        assert_eq!(half * third, Ratio::new(1, 6));
        assert!(third < half && Ratio::whole(-1) < third - half && half <= Ratio::new(3, 6));
        assert_eq!([half, third - half, Ratio::whole(3), Ratio::new(-7, 2)].map(Ratio::down), [0, -1, 3, -4]);
    }
}
