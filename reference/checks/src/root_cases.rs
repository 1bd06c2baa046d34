//! Hard and random operands for sqrt and hypot.

use crate::random::{Random, step};

type Class<T> = (&'static str, fn(&mut Random) -> T);

pub const SQRT: [Class<f64>; 6] = [
    ("any pattern", |random| f64::from_bits(random.bits())),
    ("ordinary", |random| random.between(0.0, 1e7)),
    ("square or neighbour", square),
    ("beside the square of a middle", middle_square),
    ("subnormal", |random| f64::from_bits(random.bits() >> random.whole(12, 63))),
    ("special", special),
];

pub const HYPOT: [Class<(f64, f64)>; 11] = [
    ("any patterns", |random| (f64::from_bits(random.bits()), f64::from_bits(random.bits()))),
    ("ordinary", |random| (random.between(-1e3, 1e3), random.between(-1e3, 1e3))),
    ("alike in size", alike),
    ("Pythagorean triple", triple),
    ("tie or neighbour", tie),
    ("near tie", near_tie),
    ("24 to 29 binades apart", apart),
    ("subnormal", subnormal),
    ("overflow edge", overflow),
    ("one ordinary, one of any size", |random| (random.between(0.1, 10.0), f64::from_bits(random.bits()))),
    ("special", |random| (special(random), special(random))),
];

/// A number of this binade (biased exponent), any digits.
fn binade(random: &mut Random, exponent: i64) -> f64 {
    f64::from_bits((exponent.clamp(0, 2046) as u64) << 52 | random.bits() >> 12)
}

/// 2^exponent, exactly.
fn power(exponent: i64) -> f64 {
    2f64.powi(exponent as i32)
}

/// A whole number of at most `bits` bits.
fn whole(random: &mut Random, bits: i64) -> u64 {
    random.bits() >> random.whole(64 - bits, 63)
}

fn special(random: &mut Random) -> f64 {
    let one = random.pick(&[0.0, 5e-324, f64::MIN_POSITIVE, 1.0, f64::MAX, f64::INFINITY, f64::NAN, 2.0, 1e-160]);
    let near = if one.is_finite() { random.near(one) } else { one };
    random.sign(near)
}

fn square(random: &mut Random) -> f64 {
    let root = whole(random, 26) as f64;
    let scaled = root * root * power(2 * random.whole(-500, 450));
    step(scaled, random.whole(-2, 2)).abs()
}

/// Next to y^2 for an odd y of 54 bits, which no f64 holds: the root is nearly half way.
fn middle_square(random: &mut Random) -> f64 {
    let y = u128::from(random.bits() >> 11 | 1 << 53 | 1);
    let shift = 128 - (y * y).leading_zeros() - 53;
    let below = ((y * y) >> shift) as f64;
    let scale = power(i64::from(shift % 2) + 2 * random.whole(-500, 430));
    (below + random.pick(&[0.0, 1.0])) * scale
}

fn alike(random: &mut Random) -> (f64, f64) {
    let exponent = random.whole(2, 2045);
    let near = exponent + random.whole(-3, 3);
    (binade(random, exponent), binade(random, near))
}

/// The legs d(m^2 - n^2) and 2dmn, which must be exact, by a power of two.
fn legs(random: &mut Random, m: u64, n: u64, d: u64) -> (f64, f64) {
    let scale = power(random.whole(-1074, 900));
    let (m, n) = (m.max(n), m.min(n));
    (((m - n) * (m + n) * d) as f64 * scale, (2 * m * n * d) as f64 * scale)
}

fn triple(random: &mut Random) -> (f64, f64) {
    let (m, n) = (whole(random, 26), whole(random, 26));
    legs(random, m, n, 1)
}

/// A triple whose longest side is an odd whole number of 54 bits, so that it lies between two f64.
/// Primitive ones have the even neighbour below; with d = 3 modulo 4 it is above.
fn tie(random: &mut Random) -> (f64, f64) {
    loop {
        let d = random.pick(&[1, 1, 3, 7, 11, 19, 103]);
        let top = (((1u64 << 54) / d) as f64).sqrt();
        let m = random.between(top * 0.6, top) as u64;
        let n = random.between(top * 0.2, top) as u64;
        let (longest, odd) = (d * (m * m + n * n), d * (m * m).abs_diff(n * n));
        if longest % 2 == 1 && longest >> 53 == 1 && odd < 1 << 53 {
            let (a, b) = legs(random, m, n, d);
            let b = step(b, random.pick(&[0, 0, 0, 1, -1]));
            return if random.chance(1, 2) { (a, b) } else { (b, a) };
        }
    }
}

/// b^2 / 2a is about half of a's last place.
fn near_tie(random: &mut Random) -> (f64, f64) {
    let a = binade(random, 1075);
    let b = step((a * random.pick(&[1.0, 3.0, 5.0, 7.0, 1025.0])).sqrt(), random.whole(-2, 2));
    let scale = power(random.whole(-1000, 900));
    (a * scale, b * scale)
}

fn apart(random: &mut Random) -> (f64, f64) {
    let exponent = random.whole(30, 2046);
    let lower = exponent - random.whole(24, 29);
    (binade(random, exponent), binade(random, lower))
}

fn subnormal(random: &mut Random) -> (f64, f64) {
    let mut one = || f64::from_bits(whole(random, 54));
    (one(), one())
}

/// About the largest f64.
fn overflow(random: &mut Random) -> (f64, f64) {
    let angle = random.between(0.0, 1.6);
    match random.below(4) {
        0 => {
            (step(f64::MAX, -random.whole(0, 3)), step(power(997), random.whole(-9, 9)) * random.pick(&[1.0, 1.5, 2.0]))
        }
        1 => (binade(random, 2046), binade(random, 2020)),
        _ => (f64::MAX * angle.cos(), f64::MAX * angle.sin()),
    }
}

#[cfg(test)]
mod tests {
    use super::*;

    /// Digits and exponent of a positive f64.
    fn parts(x: f64) -> (u128, i64) {
        let (biased, fraction) = ((x.to_bits() >> 52) as i64, x.to_bits() & ((1 << 52) - 1));
        if biased == 0 { (fraction.into(), -1074) } else { ((fraction | 1 << 52).into(), biased - 1075) }
    }

    /// Whether the root of a^2 + b^2 is a whole number of 54 bits, odd, times a power of two.
    fn is_tie(a: f64, b: f64) -> bool {
        let ((a, m), (b, n)) = (parts(a), parts(b));
        if (m - n).abs() > 8 {
            return false;
        }
        let (a, b) = (a << (m - m.min(n)), b << (n - m.min(n)));
        let root = (a * a + b * b).isqrt();
        root > 0 && root * root == a * a + b * b && (root >> root.trailing_zeros()) >> 53 == 1
    }

    #[test]
    fn ties_are_among_the_cases() {
        let mut random = Random::new(1, 0);
        let ties = (0..2000).map(|_| tie(&mut random)).filter(|&(a, b)| is_tie(a, b)).count();
        assert!(ties > 800, "{ties}");
    }
}
