//! `sqrt` and `hypot` as document 01 defines them: the f64 nearest the exact root, ties to even.
//!
//! A finite f64 is a whole multiple of a power of two, so which of two neighbours is nearer is decided by comparing
//! squares of whole numbers. The guess comes from f64 arithmetic; it only saves time, the comparison decides.
//! The module [`plain`] has the same two by bisection over all of f64, slowly, in multiples of 2^-1074.

pub mod plain;
mod wide;

use wide::Wide;

/// The pattern of +infinity. Read as a finite number it is 2^1024, the next value past the largest f64.
const INFINITY: u64 = 0x7ff0_0000_0000_0000;

/// `hypot` as a method, to stand in the place of `f64::hypot`.
pub trait ExactHypot {
    fn exact_hypot(self, other: Self) -> Self;
}

impl ExactHypot for f64 {
    fn exact_hypot(self, other: f64) -> f64 {
        hypot(self, other)
    }
}

/// Digits and exponent of a pattern without sign: it stands for digits * 2^exponent.
fn parts(bits: u64) -> (u64, i32) {
    let fraction = bits & ((1 << 52) - 1);
    match (bits >> 52) as i32 {
        0 => (fraction, -1074),
        biased => (fraction | 1 << 52, biased - 1075),
    }
}

/// The f64 nearest the exact root, ties to even. Below 0: NaN; the root of -0 is -0.
pub fn sqrt(x: f64) -> f64 {
    if x.is_nan() || x == 0.0 || x == f64::INFINITY {
        return x;
    }
    if x < 0.0 {
        return f64::NAN;
    }
    let (digits, exponent) = parts(x.to_bits());
    // Twice the middle of the patterns k and k + 1 against twice the root, both squared.
    let past = |k: u64| {
        let (low, unit) = parts(k);
        let middle = u128::from(2 * low + 1) * u128::from(2 * low + 1);
        let square = u128::from(4 * digits) << (exponent - 2 * unit);
        square > middle || square == middle && k & 1 == 1
    };
    f64::from_bits(settle(x.sqrt().to_bits(), 0, past))
}

/// The f64 nearest the exact root of a^2 + b^2, ties to even; +infinity past the range. Infinity wins over NaN.
pub fn hypot(a: f64, b: f64) -> f64 {
    let (a, b) = (a.abs(), b.abs());
    if a == f64::INFINITY || b == f64::INFINITY {
        return f64::INFINITY;
    }
    if a.is_nan() || b.is_nan() {
        return f64::NAN;
    }
    let (a, b) = if a < b { (b, a) } else { (a, b) };
    let (a_digits, a_exponent) = parts(a.to_bits());
    let (b_digits, unit) = parts(b.to_bits());
    let gap = a_exponent - unit;
    if b == 0.0 || gap > 28 {
        return a; // b^2 / 2a is less than half of a's last place
    }
    // From here on everything is a whole number of 2^unit.
    let (a_whole, b_whole) = (u128::from(a_digits) << gap, u128::from(b_digits));
    let square = Wide::square(2 * a_whole).plus(Wide::square(2 * b_whole));
    let whole = |k: u64| {
        let (digits, exponent) = parts(k);
        u128::from(digits) << (exponent - unit)
    };
    let past = |k: u64| {
        let middle = Wide::square(whole(k) + whole(k + 1));
        square > middle || square == middle && k & 1 == 1
    };
    let (x, y) = (a_whole as f64, b_whole as f64);
    f64::from_bits(settle(scaled((x * x + y * y).sqrt(), unit), a.to_bits(), past))
}

/// The pattern near guess * 2^unit, at most that of infinity.
fn scaled(guess: f64, unit: i32) -> u64 {
    if guess < 4503599627370496.0 {
        return guess as u64; // below 2^52 only where the unit is 2^-1074: the pattern counts units
    }
    let bits = guess.to_bits() as i64 + (i64::from(unit) << 52);
    bits.clamp(0, INFINITY as i64) as u64
}

/// The first pattern from `least` on that the root is not past, found by steps from a guess.
/// `past(k)`: the root is nearer to k + 1 than to k, or as near and k is odd.
fn settle(guess: u64, least: u64, past: impl Fn(u64) -> bool) -> u64 {
    let mut k = guess.max(least);
    while k < INFINITY && past(k) {
        k += 1;
    }
    while k > least && !past(k - 1) {
        k -= 1;
    }
    k
}
