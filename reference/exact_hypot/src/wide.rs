//! Squares of whole numbers below 2^96, as two halves.

/// high * 2^128 + low.
#[derive(Clone, Copy, PartialEq, Eq, PartialOrd, Ord)]
pub struct Wide {
    high: u128,
    low: u128,
}

impl Wide {
    /// x * x, for x below 2^96.
    pub fn square(x: u128) -> Wide {
        let (top, bottom) = (x >> 64, x & u128::from(u64::MAX));
        let cross = 2 * top * bottom;
        let (low, carry) = (bottom * bottom).overflowing_add(cross << 64);
        Wide { high: top * top + (cross >> 64) + u128::from(carry), low }
    }

    pub fn plus(self, other: Wide) -> Wide {
        let (low, carry) = self.low.overflowing_add(other.low);
        Wide { high: self.high + other.high + u128::from(carry), low }
    }
}
