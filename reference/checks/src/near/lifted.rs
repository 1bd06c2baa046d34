//! Thresholds of the lifted witness: h = 0, and a witness's radius of 0.

use super::{Make, Near, bar, turned};
use crate::query::{Kind, Query};
use crate::random::Random;

pub const LIFTED: &[(&str, Make)] = &[("middle on the axis", on_axis), ("witness's radius 0", radius_zero)];

/// A point, a sphere or a cylinder along the spindle, before z = 0, whose middle is at x and y.
fn before(random: &mut Random, kind: Kind, section: Vec<(f64, f64)>, [x, y]: [f64; 2]) -> Query {
    let (z, radius) = (random.pick(&[-8.0, -12.5, -30.0]), random.pick(&[0.0, 0.0625, 4.0]));
    let numbers: &[f64] = match kind.lifted() {
        Some(Kind::Point) => &[x, y, z],
        Some(Kind::Sphere) => &[x, y, z, radius],
        _ => &[x, y, z - 8.0, x, y, z, radius],
    };
    Query::new(kind, &[turned(random, section)], numbers)
}

/// x or y at 0, the other at 0 too or anywhere.
fn on_axis(random: &mut Random, kind: Kind) -> Near {
    let (number, other) = (random.near(0.0), random.pick(&[0.0, -0.0, 5e-324, -5e-324, 1e-310, 3.0]));
    let middle = if random.chance(1, 2) { [number, other] } else { [other, number] };
    let section = bar(random);
    Near { query: before(random, kind, section, middle), number, threshold: 0.0 }
}

/// The witness is the tip of the section, its vertex at z = 0.
fn radius_zero(random: &mut Random, kind: Kind) -> Near {
    let number = random.near(0.0);
    let middle = random.pick(&[[3.0, 4.0], [-4.0, 3.0], [0.0, -2.0], [-0.0, 0.0], [0.7, -0.1]]);
    let section = vec![(0.0, number), (10.0, 10.0), (20.0, 0.0)];
    Near { query: before(random, kind, section, middle), number, threshold: 0.0 }
}
