//! Thresholds of the two builders.

use super::{DRAWING, Make, Near};
use crate::query::{Kind, Query};
use crate::random::Random;

pub const SECTION: &[(&str, Make)] = &[
    ("radius 0", axis),
    ("repeated point, z 1e-12 apart", repeated_z),
    ("repeated point, radius 1e-12 apart", repeated_radius),
    ("closing point, radius 1e-12", closing_radius),
    ("closing point, z 1e-12 apart", closing_z),
];

pub const POLYGON: &[(&str, Make)] = &[
    ("radius 0", axis),
    ("repeated point, z 1e-12 apart", repeated_z),
    ("repeated point, radius 1e-12 apart", repeated_radius),
    ("closing vertex, z 1e-12 apart", closing_vertex),
];

/// 4 to 12 points of a drawing.
fn points(random: &mut Random) -> Vec<f64> {
    let count = random.whole(4, 12);
    (0..count).flat_map(|_| [DRAWING.coordinate(random), DRAWING.coordinate(random).abs()]).collect()
}

fn query(random: &mut Random, kind: Kind, points: Vec<f64>) -> Query {
    let space = points.len() + if kind == Kind::Section { 4 } else { 0 } + random.below(3);
    Query::builder(kind, points, space)
}

fn axis(random: &mut Random, kind: Kind) -> Near {
    let (mut points, number) = (points(random), random.near(0.0));
    let vertex = random.below(points.len() / 2);
    points[2 * vertex + 1] = if number == 0.0 { -0.0 } else { number };
    Near { query: query(random, kind, points), number, threshold: 0.0 }
}

/// Two points whose coordinate `which` is 0 in one and 1e-12 in the other; the other coordinate agrees, or nearly.
fn apart(random: &mut Random, points: &mut [f64], first: usize, second: usize, which: usize) -> f64 {
    let number = random.near(1e-12);
    // A radius below 0 is raised to 0 before it is compared.
    let below = random.pick(&[-1e-9, -5e-10, -5e-324]);
    let both = if which == 0 { (number * 0.5, -number * 0.5) } else { (below, number) };
    let (a, b) = random.pick(&[(0.0, number), (number, 0.0), both]);
    points[2 * first + which] = a;
    points[2 * second + which] = b;
    points[2 * second + 1 - which] = points[2 * first + 1 - which];
    number
}

fn repeated_z(random: &mut Random, kind: Kind) -> Near {
    let mut points = points(random);
    let vertex = random.below(points.len() / 2 - 1);
    let number = apart(random, &mut points, vertex, vertex + 1, 0);
    Near { query: query(random, kind, points), number, threshold: 1e-12 }
}

fn repeated_radius(random: &mut Random, kind: Kind) -> Near {
    let mut points = points(random);
    let vertex = random.below(points.len() / 2 - 1);
    let number = apart(random, &mut points, vertex, vertex + 1, 1);
    Near { query: query(random, kind, points), number, threshold: 1e-12 }
}

/// The last point lies 1e-12 above the spindle.
fn closing_radius(random: &mut Random, kind: Kind) -> Near {
    let (mut points, number) = (points(random), random.near(1e-12));
    let last = points.len() - 1;
    points[last] = number;
    Near { query: query(random, kind, points), number, threshold: 1e-12 }
}

/// First and last z are 1e-12 apart, so the second closing point may repeat the first.
fn closing_z(random: &mut Random, kind: Kind) -> Near {
    let (mut points, number) = (points(random), random.near(1e-12));
    let last = points.len() - 2;
    (points[0], points[last]) = random.pick(&[(0.0, number), (number, 0.0)]);
    Near { query: query(random, kind, points), number, threshold: 1e-12 }
}

fn closing_vertex(random: &mut Random, kind: Kind) -> Near {
    let mut points = points(random);
    let last = points.len() / 2 - 1;
    let which = random.below(2);
    let number = apart(random, &mut points, 0, last, which);
    Near { query: query(random, kind, points), number, threshold: 1e-12 }
}
