//! Whole numbers of any size, with a sign, and the sign of p + q √n.

use std::cmp::Ordering;
use std::ops::{Add, Mul, Neg, Sub};

/// Digits of 64 bits, the lowest first and the highest not 0; zero has none and is not negative.
#[derive(Clone, Debug, PartialEq, Eq)]
pub struct Whole {
    negative: bool,
    digits: Vec<u64>,
}

/// x is the first times 2 to the second; of zero the second is the largest.
fn parts(x: f64) -> (u64, i32) {
    let bits = x.to_bits() & (u64::MAX >> 1);
    let fraction = bits & ((1 << 52) - 1);
    let (digits, exponent) = match (bits >> 52) as i32 {
        0 => (fraction, -1074),
        biased => (fraction | 1 << 52, biased - 1075),
    };
    match digits {
        0 => (0, i32::MAX),
        _ => (digits >> digits.trailing_zeros(), exponent + digits.trailing_zeros() as i32),
    }
}

/// The exponent of the largest power of two of which all these are multiples, and 1 is.
pub fn unit(numbers: impl IntoIterator<Item = f64>) -> i32 {
    numbers.into_iter().fold(0, |unit, x| unit.min(parts(x).1))
}

impl Whole {
    /// x in multiples of 2^unit.
    pub fn of(x: f64, unit: i32) -> Whole {
        let (digits, exponent) = parts(x);
        if digits == 0 {
            return Whole { negative: false, digits: Vec::new() };
        }
        let shift = usize::try_from(exponent - unit).expect("a multiple of the unit");
        let wide = u128::from(digits) << (shift % 64);
        let mut list = vec![0; shift / 64];
        list.extend([wide as u64, (wide >> 64) as u64]);
        trimmed(list, x < 0.0)
    }

    pub fn sign(&self) -> Ordering {
        match (self.digits.is_empty(), self.negative) {
            (true, _) => Ordering::Equal,
            (_, true) => Ordering::Less,
            _ => Ordering::Greater,
        }
    }
}

fn trimmed(mut digits: Vec<u64>, negative: bool) -> Whole {
    while digits.last() == Some(&0) {
        digits.pop();
    }
    Whole { negative: negative && !digits.is_empty(), digits }
}

fn compare(a: &[u64], b: &[u64]) -> Ordering {
    a.len().cmp(&b.len()).then_with(|| a.iter().rev().cmp(b.iter().rev()))
}

fn sum(a: &[u64], b: &[u64]) -> Vec<u64> {
    let digit = |list: &[u64], i: usize| u128::from(list.get(i).copied().unwrap_or(0));
    let mut carry = 0;
    let place = |i| {
        carry += digit(a, i) + digit(b, i);
        let low = carry as u64;
        carry >>= 64;
        low
    };
    (0..=a.len().max(b.len())).map(place).collect()
}

/// a - b, for a no smaller than b.
fn difference(a: &[u64], b: &[u64]) -> Vec<u64> {
    let mut borrow = false;
    let place = |(i, &x): (usize, &u64)| {
        let (y, first) = x.overflowing_sub(b.get(i).copied().unwrap_or(0));
        let (y, second) = y.overflowing_sub(u64::from(borrow));
        borrow = first || second;
        y
    };
    a.iter().enumerate().map(place).collect()
}

impl Neg for &Whole {
    type Output = Whole;
    fn neg(self) -> Whole {
        Whole { negative: !self.negative && !self.digits.is_empty(), digits: self.digits.clone() }
    }
}

impl Add for &Whole {
    type Output = Whole;
    fn add(self, other: &Whole) -> Whole {
        if self.negative == other.negative {
            return trimmed(sum(&self.digits, &other.digits), self.negative);
        }
        match compare(&self.digits, &other.digits) {
            Ordering::Less => trimmed(difference(&other.digits, &self.digits), other.negative),
            _ => trimmed(difference(&self.digits, &other.digits), self.negative),
        }
    }
}

impl Sub for &Whole {
    type Output = Whole;
    fn sub(self, other: &Whole) -> Whole {
        self + &-other
    }
}

impl Mul for &Whole {
    type Output = Whole;
    fn mul(self, other: &Whole) -> Whole {
        let mut digits = vec![0u64; self.digits.len() + other.digits.len()];
        for (i, &x) in self.digits.iter().enumerate() {
            let mut carry = 0;
            for (j, &y) in other.digits.iter().enumerate() {
                carry += u128::from(digits[i + j]) + u128::from(x) * u128::from(y);
                digits[i + j] = carry as u64;
                carry >>= 64;
            }
            digits[i + other.digits.len()] = carry as u64;
        }
        trimmed(digits, self.negative != other.negative)
    }
}

/// The sum of these numbers, in multiples of their unit.
pub fn total(terms: &[f64]) -> Whole {
    let unit = unit(terms.iter().copied());
    terms.iter().fold(Whole::of(0.0, unit), |total, &x| &total + &Whole::of(x, unit))
}

/// The sign of p + q √n, n not below 0.
pub fn root_sign(p: &Whole, q: &Whole, n: &Whole) -> Ordering {
    let second = if n.sign().is_eq() { Ordering::Equal } else { q.sign() };
    match (p.sign(), second) {
        (first, Ordering::Equal) => first,
        (Ordering::Equal, second) => second,
        (first, second) if first == second => first,
        (first, second) => match compare(&(p * p).digits, &(&(q * q) * n).digits) {
            Ordering::Greater => first,
            Ordering::Equal => Ordering::Equal,
            Ordering::Less => second,
        },
    }
}

#[cfg(test)]
mod tests {
    use super::*;
    use crate::random::Random;

    fn of(x: i128) -> Whole {
        let size = x.unsigned_abs();
        trimmed(vec![size as u64, (size >> 64) as u64], x < 0)
    }

    #[test]
    fn as_the_machine_counts() {
        let mut random = Random::new(1, 7100);
        for _ in 0..20_000 {
            let mut draw = || (random.bits() as i64 >> random.below(63)) as i128 * (1 + random.below(5) as i128);
            let (a, b) = (draw(), draw() / 8);
            assert_eq!(&of(a) + &of(b), of(a + b));
            assert_eq!(&of(a) - &of(b), of(a - b));
            assert_eq!(&of(a >> 4) * &of(b), of((a >> 4) * b));
        }
        let (large, one) = (of(u64::MAX as i128), of(1));
        assert_eq!(&(&large * &large) + &(&large + &large), &(&(&large + &one) * &(&large + &one)) - &one);
    }

    #[test]
    fn floats_and_roots() {
        assert_eq!(Whole::of(-1.5, -3), of(-12));
        assert_eq!(unit([4.0, 0.75, 0.0]), -2);
        assert_eq!(&Whole::of(5e-324, -1074) + &Whole::of(-5e-324, -1074), of(0));
        // 7 - 5 √2 = -0.07.., 10 - 5 √4 = 0, -7 + 5 √2 and 3 + 0 √2 are positive.
        let sign = |p, q, n| root_sign(&of(p), &of(q), &of(n));
        assert_eq!([sign(7, -5, 2), sign(10, -5, 4)], [Ordering::Less, Ordering::Equal]);
        assert_eq!(
            [sign(-7, 5, 2), sign(3, 0, 2), sign(-1, 5, 0)],
            [Ordering::Greater, Ordering::Greater, Ordering::Less]
        );
    }
}
