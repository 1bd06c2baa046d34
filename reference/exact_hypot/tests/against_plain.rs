//! The quick roots against the plain ones, on hard cases and on random ones.

use exact_hypot::{hypot, plain, sqrt};

fn same(a: f64, b: f64) -> bool {
    a.to_bits() == b.to_bits() || a.is_nan() && b.is_nan()
}

fn check_hypot(a: f64, b: f64) {
    let want = plain::hypot(a, b);
    for (x, y) in [(a, b), (b, a), (-a, b), (a, -b)] {
        assert!(same(hypot(x, y), want), "hypot({x:e}, {y:e}) is {:e}, not {want:e}", hypot(x, y));
    }
}

fn check_sqrt(x: f64) {
    let want = plain::sqrt(x);
    assert!(same(sqrt(x), want), "sqrt({x:e}) is {:e}, not {want:e}", sqrt(x));
    assert!(same(x.sqrt(), want), "the processor's root of {x:e} is {:e}, not {want:e}", x.sqrt());
}

/// xorshift64.
struct Random(u64);

impl Random {
    fn next(&mut self) -> u64 {
        self.0 ^= self.0 << 13;
        self.0 ^= self.0 >> 7;
        self.0 ^= self.0 << 17;
        self.0
    }

    /// A positive finite f64 whose biased exponent lies in the range.
    fn number(&mut self, low: u64, high: u64) -> f64 {
        let exponent = low + self.next() % (high - low + 1);
        f64::from_bits(exponent << 52 | self.next() >> 12)
    }
}

const SPECIAL: [f64; 14] = [
    f64::NAN,
    f64::INFINITY,
    f64::NEG_INFINITY,
    0.0,
    -0.0,
    5e-324,
    -5e-324,
    f64::MIN_POSITIVE,
    f64::MAX,
    f64::MIN,
    1.0,
    -1.0,
    0.5,
    0.3,
];

#[test]
fn special_values() {
    for a in SPECIAL {
        check_sqrt(a);
        for b in SPECIAL {
            check_hypot(a, b);
        }
    }
    assert_eq!(hypot(f64::INFINITY, f64::NAN), f64::INFINITY);
    assert_eq!(hypot(f64::NAN, f64::NEG_INFINITY), f64::INFINITY);
    assert!(sqrt(-0.0).is_sign_negative());
}

#[test]
fn known_values() {
    assert_eq!(hypot(0.5, 0.3).to_bits(), 0x3fe2_a8b7_3e29_4fb5);
    assert_eq!(hypot(3.0, 4.0), 5.0);
    assert_eq!(hypot(f64::MAX, 2f64.powi(997)), f64::MAX);
    assert_eq!(hypot(f64::MAX, f64::MAX), f64::INFINITY);
    assert_eq!(hypot(3.0 * 5e-324, 4.0 * 5e-324), 5.0 * 5e-324);
    // Half way between two: the even one.
    let v = 2f64.powi(26);
    assert_eq!(hypot(2.0 * v * (v + 1.0), 2.0 * v + 1.0), 2f64.powi(53) + 2f64.powi(27));
    // Half way between the largest f64 and 2^1024: the even one is past the range.
    let edge = (f64::from_bits(0x7fd5_9b43_fab3_687f), f64::from_bits(0x7fee_1f0a_43c3_e148));
    assert_eq!(hypot(edge.0, edge.1), f64::INFINITY);
    assert_eq!(hypot(edge.0, edge.1.next_down()), f64::MAX);
    check_hypot(edge.0, edge.1);
    check_hypot(edge.0, edge.1.next_down());
}

#[test]
fn ties_and_their_neighbours() {
    let v = 2f64.powi(26);
    for i in 0..60 {
        let w = v + f64::from(i * 345_678);
        for odd in [1.0, 3.0, 7.0] {
            let (a, b) = (2.0 * w * (w + 1.0) * odd, (2.0 * w + 1.0) * odd);
            for (x, y) in [(a, b), (a.next_up(), b), (a, b.next_down()), (a, b.next_up())] {
                check_hypot(x, y);
            }
        }
    }
}

#[test]
fn near_ties_and_gaps() {
    let mut random = Random(1);
    for _ in 0..400 {
        // b near the root of a, in units of a's last place: a + b^2 / 2a is near a middle.
        let a = f64::from_bits(1075 << 52 | random.next() >> 12);
        let b = a.sqrt();
        for (x, y) in [(a, b), (a, b.next_down()), (a, b.next_up())] {
            check_hypot(x, y);
        }
        let big = random.number(64, 2046);
        for gap in 24..31 {
            let exponent = (big.to_bits() >> 52) - gap;
            check_hypot(big, random.number(exponent, exponent));
        }
    }
}

#[test]
fn subnormal_and_overflowing() {
    let mut random = Random(2);
    for _ in 0..800 {
        check_hypot(random.number(0, 0), random.number(0, 1));
        check_hypot(f64::from_bits(random.next() % 9), f64::from_bits(random.next() % 9));
        check_hypot(random.number(2045, 2046), random.number(2018, 2046));
        check_sqrt(random.number(0, 0));
        check_sqrt(f64::from_bits(random.next() >> (12 + random.next() % 52)));
    }
    let half = f64::MAX / 2f64.sqrt();
    for (x, y) in [(half, half), (half.next_up(), half), (half.next_up(), half.next_up()), (half.next_down(), half)] {
        check_hypot(x, y);
    }
}

#[test]
fn squares_and_their_neighbours() {
    let mut random = Random(3);
    for _ in 0..500 {
        let root = (random.next() >> 38) as f64;
        for x in [root * root, (root * root).next_up(), (root * root).next_down()] {
            check_sqrt(x);
        }
        let other = random.number(1000, 1050);
        check_sqrt((other * other).next_up());
    }
}

#[test]
fn random_values() {
    let mut random = Random(4);
    for _ in 0..1500 {
        check_hypot(f64::from_bits(random.next()), f64::from_bits(random.next()));
        let near = random.number(900, 1100);
        let exponent = near.to_bits() >> 52;
        check_hypot(near, random.number(exponent - 4, exponent + 4));
        check_sqrt(random.number(0, 2046));
    }
}
