//! The two roots once more, as plainly as they can be written: every finite f64 is a whole number of 2^-1074,
//! kept as a list of digits, and the answer is found by bisection over the patterns of all f64.

use std::cmp::Ordering;

/// A whole number in digits of 32 bits, the lowest first.
#[derive(Clone, Debug, PartialEq, Eq)]
pub struct Whole(Vec<u32>);

impl Whole {
    /// x * 2^shift.
    pub fn shifted(x: u64, shift: usize) -> Whole {
        let wide = u128::from(x) << (shift % 32);
        let mut digits = vec![0; shift / 32];
        digits.extend((0..3).map(|i| (wide >> (32 * i)) as u32));
        Whole(digits)
    }

    pub fn plus(&self, other: &Whole) -> Whole {
        let mut carry = 0;
        let digits = (0..=self.0.len().max(other.0.len())).map(|i| {
            carry += self.digit(i) + other.digit(i);
            let digit = carry as u32;
            carry >>= 32;
            digit
        });
        Whole(digits.collect())
    }

    pub fn times(&self, other: &Whole) -> Whole {
        let mut digits = vec![0u32; self.0.len() + other.0.len() + 1];
        for (i, &x) in self.0.iter().enumerate() {
            let mut carry = 0;
            for j in 0..=other.0.len() {
                carry += u64::from(digits[i + j]) + u64::from(x) * other.digit(j);
                digits[i + j] = carry as u32;
                carry >>= 32;
            }
        }
        Whole(digits)
    }

    fn digit(&self, i: usize) -> u64 {
        self.0.get(i).map_or(0, |&digit| u64::from(digit))
    }

    pub fn compare(&self, other: &Whole) -> Ordering {
        let places = (0..self.0.len().max(other.0.len())).rev();
        places.map(|i| self.digit(i).cmp(&other.digit(i))).find(|order| order.is_ne()).unwrap_or(Ordering::Equal)
    }
}

/// The number of a pattern without sign, in multiples of 2^-1074; the pattern of infinity counts as 2^1024.
pub fn multiples(bits: u64) -> Whole {
    let fraction = bits & ((1 << 52) - 1);
    match (bits >> 52) as usize {
        0 => Whole::shifted(fraction, 0),
        biased => Whole::shifted(fraction | 1 << 52, biased - 1),
    }
}

/// The f64 nearest the root of square / 4, ties to even.
fn nearest_root(square: &Whole) -> f64 {
    let (mut low, mut high) = (0, f64::INFINITY.to_bits());
    while low < high {
        let k = (low + high) / 2;
        let middle = multiples(k).plus(&multiples(k + 1));
        let order = square.compare(&middle.times(&middle));
        if order.is_gt() || order.is_eq() && k % 2 == 1 {
            low = k + 1;
        } else {
            high = k;
        }
    }
    f64::from_bits(low)
}

/// See [`crate::sqrt`].
pub fn sqrt(x: f64) -> f64 {
    if x.is_nan() || x == 0.0 || x == f64::INFINITY {
        return x;
    }
    if x < 0.0 {
        return f64::NAN;
    }
    // x = n * 2^-1074, so its root is the root of n * 2^1074, in multiples of 2^-1074.
    nearest_root(&multiples(x.to_bits()).times(&Whole::shifted(4, 1074)))
}

/// See [`crate::hypot`].
pub fn hypot(a: f64, b: f64) -> f64 {
    if a.is_infinite() || b.is_infinite() {
        return f64::INFINITY;
    }
    if a.is_nan() || b.is_nan() {
        return f64::NAN;
    }
    let square = |x: f64| {
        let whole = multiples(x.abs().to_bits());
        whole.times(&whole)
    };
    nearest_root(&square(a).plus(&square(b)).times(&Whole::shifted(4, 0)))
}
