//! Thresholds of point and sphere distance.

use super::{Make, Near, bar, mirrored, turned};
use crate::query::{Kind, Query};
use crate::random::Random;

pub const POINT: &[(&str, Make)] = &[
    ("boundary 1e-12", boundary),
    ("axis edge, radius 1e-9", axis_edge),
    ("centreline, radius 1e-8", centreline),
    ("centreline, 1e-9 inside its ends", centreline_ends),
    ("level edge, radii 1e-18 apart", level_edge),
    ("short edge, squared length 1e-24", short_edge),
];

pub const SPHERE: &[(&str, Make)] = &[("radius 0", radius_zero)];

/// A point, or a sphere around it. hypot(radius, 0) is the radius itself.
fn at(random: &mut Random, kind: Kind, section: Vec<(f64, f64)>, z: f64, radius: f64) -> Query {
    let (x, y) = random.pick(&[(radius, 0.0), (0.0, radius), (-radius, 0.0), (-0.0, -radius)]);
    let mut numbers = vec![x, y, z];
    if kind == Kind::Sphere {
        numbers.push(random.pick(&[0.0, 1e-12, 1e-9, 0.5, 4.0, 3e5]));
    }
    Query::new(kind, &[turned(random, section)], &numbers)
}

/// Beside the face at z = 0.
fn boundary(random: &mut Random, kind: Kind) -> Near {
    let number = random.near(1e-12);
    let mut section = bar(random);
    if random.chance(1, 2) {
        mirrored(&mut section);
    }
    let (z, radius) = (random.sign(number), random.pick(&[0.25, 0.5, 0.75, 0.3]));
    Near { query: at(random, kind, section, z, radius), number, threshold: 1e-12 }
}

/// A lowest edge whose ends lie 1e-9 off the spindle, on either side.
fn axis_edge(random: &mut Random, kind: Kind) -> Near {
    let number = random.near(1e-9);
    let mut section = bar(random);
    let last = section.len() - 1;
    section[0].1 = random.sign(number);
    section[last].1 = random.pick(&[0.0, number, -number, 1e-10]);
    let z = section[last].0 * random.pick(&[0.25, 0.5, -0.1, 1.25]);
    let radius = random.pick(&[0.0, 1e-9, 1e-8, 2e-9, 0.125]);
    Near { query: at(random, kind, section, z, radius), number, threshold: 1e-9 }
}

/// A bar of a radius below 1e-8: at about 1e-8 only the centreline rule can put a point inside.
fn thin(random: &mut Random, section: &mut [(f64, f64)]) {
    let radius = random.pick(&[2e-9, 5e-9, 9e-9]);
    section.iter_mut().filter(|vertex| vertex.1 > 0.0).for_each(|vertex| vertex.1 = radius);
}

/// Above a thin bar, or inside a thick one.
fn centreline(random: &mut Random, kind: Kind) -> Near {
    let number = random.near(1e-8);
    let mut section = bar(random);
    if random.chance(3, 4) {
        thin(random, &mut section);
    }
    let z = section[section.len() - 1].0 * random.pick(&[0.125, 0.5, 0.75]);
    Near { query: at(random, kind, section, z, number), number, threshold: 1e-8 }
}

/// 1e-9 from an end of the axis edge: above a thin bar, or under an axis edge that lies 5e-10 off the spindle, where only
/// the centreline rule can put the point inside; or in a thick bar.
fn centreline_ends(random: &mut Random, kind: Kind) -> Near {
    let mut section = bar(random);
    let (last, left) = (section.len() - 1, random.chance(1, 2));
    let radius = match random.below(4) {
        0 => random.pick(&[0.0, 1e-9, 1e-8]),
        1 => {
            thin(random, &mut section);
            1e-8
        }
        _ => {
            (section[0].1, section[last].1) = (5e-10, 5e-10);
            random.pick(&[0.0, 1e-10])
        }
    };
    if left {
        mirrored(&mut section);
    }
    let length = section[section.len() - 1].0;
    let threshold = match random.below(3) {
        0 if left => length + 1e-9,
        0 => length - 1e-9,
        _ if left => -1e-9,
        _ => 1e-9,
    };
    let number = random.near(threshold);
    Near { query: at(random, kind, section, number, radius), number, threshold }
}

/// A point beside the face, under an edge that rises by 1e-18 over the whole length.
fn level_edge(random: &mut Random, kind: Kind) -> Near {
    let number = random.near(1e-18);
    let mut section = bar(random);
    let last = section.len() - 1;
    section[last].1 = number;
    let radius = random.pick(&[0.0, 5e-19, 1e-19, number]);
    let z = random.pick(&[1e-10, 5e-10, 2e-12, 1.0]);
    Near { query: at(random, kind, section, z, radius), number, threshold: 1e-18 }
}

/// An edge of length 1e-12 at the left upper corner, first in the list or not.
fn short_edge(random: &mut Random, kind: Kind) -> Near {
    let length = step_to_square(random);
    let mut section = bar(random);
    let radius = section[1].1;
    section.insert(2, (length, radius));
    let z = random.pick(&[length, length * 0.5, 1e-12, 2e-12, 0.0, -1.0]);
    let above = radius + random.pick(&[0.5, 1.0, 3.0]);
    Near { query: at(random, kind, section, z, above), number: length * length, threshold: 1e-24 }
}

/// A length about 1e-12.
pub fn step_to_square(random: &mut Random) -> f64 {
    crate::random::step(1e-12, random.whole(-2, 2))
}

fn radius_zero(random: &mut Random, kind: Kind) -> Near {
    let number = random.near(0.0);
    let section = bar(random);
    let mut query = at(random, kind, section, -1.0, 0.5);
    query.numbers[2] = random.pick(&[-3.0, 0.0, 1.0, 60.0]);
    query.numbers[3] = number;
    Near { query, number, threshold: 0.0 }
}
