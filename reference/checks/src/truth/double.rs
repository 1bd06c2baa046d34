//! Double-double numbers: the exact sum of two f64s, the second at most half a place of the first. Sums, differences and products
//! of two f64s are exact; every operation of two doubles, and the root, errs by less than 2^-100 of its result, where nothing
//! falls below 2^-960.

use std::cmp::Ordering;
use std::ops::{Add, Div, Mul, Neg, Sub};

#[derive(Clone, Copy, Debug, PartialEq)]
pub struct Double {
    pub high: f64,
    pub low: f64,
}

/// a + b, exact.
pub fn sum(a: f64, b: f64) -> Double {
    let high = a + b;
    let other = high - a;
    Double { high, low: (a - (high - other)) + (b - other) }
}

/// a b, exact.
pub fn product(a: f64, b: f64) -> Double {
    let high = a * b;
    Double { high, low: a.mul_add(b, -high) }
}

/// high + low, exact, for a low that is no larger.
fn settled(high: f64, low: f64) -> Double {
    let total = high + low;
    Double { high: total, low: low - (total - high) }
}

impl From<f64> for Double {
    fn from(high: f64) -> Double {
        Double { high, low: 0.0 }
    }
}

impl Neg for Double {
    type Output = Double;
    fn neg(self) -> Double {
        Double { high: -self.high, low: -self.low }
    }
}

impl Add for Double {
    type Output = Double;
    fn add(self, other: Double) -> Double {
        let (high, low) = (sum(self.high, other.high), sum(self.low, other.low));
        let first = settled(high.high, high.low + low.high);
        settled(first.high, first.low + low.low)
    }
}

impl Sub for Double {
    type Output = Double;
    fn sub(self, other: Double) -> Double {
        self + -other
    }
}

impl Mul for Double {
    type Output = Double;
    fn mul(self, other: Double) -> Double {
        let top = product(self.high, other.high);
        settled(top.high, top.low + (self.high * other.low + self.low * other.high))
    }
}

impl Div for Double {
    type Output = Double;
    fn div(self, other: Double) -> Double {
        let first = self.high / other.high;
        let rest = self - other * first.into();
        let second = rest.high / other.high;
        let third = (rest - other * second.into()).high / other.high;
        settled(first, second) + third.into()
    }
}

impl PartialOrd for Double {
    fn partial_cmp(&self, other: &Double) -> Option<Ordering> {
        let by_high = self.high.partial_cmp(&other.high)?;
        Some(by_high.then(self.low.partial_cmp(&other.low)?))
    }
}

impl Double {
    pub fn magnitude(self) -> Double {
        if self.high < 0.0 { -self } else { self }
    }

    /// The root of what is not below 0.
    pub fn root(self) -> Double {
        if self.high <= 0.0 {
            return 0.0.into();
        }
        let first = self.high.sqrt();
        let rest = self - product(first, first);
        settled(first, rest.high / (2.0 * first))
    }
}
