//! Thresholds of box distance and of convex polygon distance.

use super::point::step_to_square;
use super::{Make, Near, bar, mirrored, turned};
use crate::query::{Kind, Query};
use crate::random::Random;

type Vertex = (f64, f64);

pub const BOX: &[(&str, Make)] = &[
    ("gap 1e-12", gap),
    ("penetration 1e-9", penetration),
    ("vertex 1e-9 inside a side", vertex_inside),
    ("clipped middle 1e-9 inside a side", middle_inside),
    ("parallel edge 1e-18", parallel),
    ("parallel edge, 1e-15 outside", parallel_outside),
    ("short edge, squared length 1e-24", short_edge),
    ("short side, squared length 1e-24", short_side),
    ("denominator 1e-18", denominator),
    ("z1 below z0", z_order),
    ("r1 below r0", r_order),
];

pub const CONVEX: &[(&str, Make)] = &[
    ("gap 1e-12", gap),
    ("penetration 1e-9, body's vertex", penetration),
    ("penetration 1e-9, section's vertex", section_vertex),
    ("boundary 1e-12, section's vertex", section_boundary),
    ("cross product 1e-9", cross_product),
    ("short edge, squared length 1e-24", short_edge),
    ("body's short edge, squared length 1e-24", short_side),
    ("denominator 1e-18", denominator),
    ("denominator 1e-18, crossing edges", crossing),
];

/// The query for a box; for the convex kind the box's corners, or a triangle over its lower side.
fn body(random: &mut Random, kind: Kind, section: Vec<Vertex>, bounds: [f64; 4]) -> Query {
    let [z0, z1, r0, r1] = bounds;
    let list = turned(random, section);
    if kind == Kind::Box {
        return Query::new(kind, &[list], &bounds);
    }
    let corners = vec![(z0, r0), (z1, r0), (z1, r1), (z0, r1)];
    Query::new(kind, &[turned(random, corners), list], &[])
}

/// The other side of z = 0, for section and bounds alike.
fn maybe_mirrored(random: &mut Random, section: &mut [Vertex], bounds: [f64; 4]) -> [f64; 4] {
    if random.chance(1, 2) {
        return bounds;
    }
    mirrored(section);
    [-bounds[1], -bounds[0], bounds[2], bounds[3]]
}

/// A range of radii within the bar's face.
fn radii(random: &mut Random) -> (f64, f64) {
    random.pick(&[(0.25, 0.75), (0.0, 0.5), (0.125, 0.875), (0.5, 0.5), (0.0, 3.0), (0.5, 100.0)])
}

/// Beside the face at z = 0.
fn gap(random: &mut Random, kind: Kind) -> Near {
    let number = random.near(1e-12);
    let (mut section, (r0, r1)) = (bar(random), radii(random));
    let bounds = [-random.pick(&[1.0, 5.0, 1e-12, 1e-3]), -number, r0, r1];
    let bounds = [bounds[0].min(bounds[1]), bounds[1], r0, r1];
    let bounds = maybe_mirrored(random, &mut section, bounds);
    Near { query: body(random, kind, section, bounds), number, threshold: 1e-12 }
}

/// Through the face at z = 0, and 1e-9 deep.
fn penetration(random: &mut Random, kind: Kind) -> Near {
    let number = random.near(1e-9);
    let (mut section, (r0, r1)) = (bar(random), radii(random));
    let bounds = [-random.pick(&[1.0, 5.0, 1e-9, 0.0]), number, r0, r1];
    let bounds = maybe_mirrored(random, &mut section, bounds);
    Near { query: body(random, kind, section, bounds), number, threshold: 1e-9 }
}

/// The lower left vertex, (0, 0), 1e-9 inside one side of the box and well inside the others.
fn vertex_inside(random: &mut Random, kind: Kind) -> Near {
    let number = random.near(1e-9);
    let far = random.pick(&[0.5, 1.0, 2e-9, 40.0]);
    let mut bounds = [-far, far, -far, far];
    let side = random.below(4);
    bounds[side] = if side == 0 || side == 2 { -number } else { number };
    let section = bar(random);
    Near { query: body(random, kind, section, bounds), number, threshold: 1e-9 }
}

/// The face at z = 0, or the axis edge, runs through the box, 1e-9 inside one side.
fn middle_inside(random: &mut Random, kind: Kind) -> Near {
    let number = random.near(1e-9);
    let section = bar(random);
    let (near, far) = random.pick(&[(0.25, 0.75), (0.125, 0.5), (-1.0, 0.5)]);
    let other = random.pick(&[1.0, 2e-9, 30.0]);
    let bounds = match random.below(4) {
        0 => [-number, other, near, far],
        1 => [-other, number, near, far],
        2 => [near.abs(), far, -number, other],
        _ => [near.abs(), far, -other, number],
    };
    Near { query: body(random, kind, section, bounds), number, threshold: 1e-9 }
}

/// The lowest edge rises by 1e-18, or the face leans by as much.
fn parallel(random: &mut Random, kind: Kind) -> Near {
    let number = random.near(1e-18);
    let mut section = bar(random);
    let last = section.len() - 1;
    let (length, radius, end) = (section[last].0, section[1].1, random.below(2));
    let beside = random.pick(&[0.0, 1e-19, 5e-19, number, 1e-15, 2e-15, -1e-15]);
    let bounds = if random.chance(1, 2) {
        section[[0, last][end]].1 = number;
        let z0 = length * random.pick(&[-0.5, 0.25, 0.0]);
        [z0, length * 0.75, beside, beside + random.pick(&[0.0, 1e-18, 0.5, 1.0])]
    } else {
        section[end].0 = number;
        [-1.0, beside, radius * 0.25, radius * random.pick(&[0.5, 0.75])]
    };
    let bounds = maybe_mirrored(random, &mut section, bounds);
    Near { query: body(random, kind, section, bounds), number, threshold: 1e-18 }
}

/// A side lies 1e-15 beside an edge that runs along it.
fn parallel_outside(random: &mut Random, kind: Kind) -> Near {
    let number = random.near(1e-15);
    let mut section = bar(random);
    let length = section[section.len() - 1].0;
    let bounds = if random.chance(1, 2) {
        [length * random.pick(&[0.125, 0.25, -0.5]), length * 0.5, -1.0, -number]
    } else {
        [-1.0, -number, random.pick(&[0.125, 0.25, -0.5]), 0.5]
    };
    let bounds = maybe_mirrored(random, &mut section, bounds);
    Near { query: body(random, kind, section, bounds), number, threshold: 1e-15 }
}

/// An edge of length 1e-12 at the left upper corner of the bar.
fn short_edge(random: &mut Random, kind: Kind) -> Near {
    let length = step_to_square(random);
    let mut section = bar(random);
    let radius = section[1].1;
    section.insert(2, (length, radius));
    let r0 = radius + random.pick(&[0.5, 1.0, 1e-3]);
    let z0 = random.pick(&[-4.0, 0.0, length, 1e-12]);
    let z1 = z0 + random.pick(&[0.0, 1e-12, 2.0]);
    Near { query: body(random, kind, section, [z0, z1, r0, r0 + 1.0]), number: length * length, threshold: 1e-24 }
}

/// A box that is 1e-12 wide.
fn short_side(random: &mut Random, kind: Kind) -> Near {
    let width = step_to_square(random);
    let mut section = bar(random);
    let r0 = random.pick(&[0.25, 0.0, 60.0]);
    let bounds = if random.chance(1, 2) {
        [0.0, width, r0, r0 + random.pick(&[0.0, 0.5, 2.0])]
    } else {
        [-random.pick(&[0.5, 4.0]), -0.25, 0.0, width]
    };
    let bounds = maybe_mirrored(random, &mut section, bounds);
    Near { query: body(random, kind, section, bounds), number: width * width, threshold: 1e-24 }
}

/// An edge of length 2^k along z against a box of height 1e-9 / 2^k: squared lengths 4^k and 1e-18 / 4^k.
fn denominator(random: &mut Random, kind: Kind) -> Near {
    let length = random.pick(&[0.5, 1.0, 2.0, 4.0, 8.0]);
    let height = crate::random::step(1e-9, random.whole(-2, 2)) / length;
    let radius = random.pick(&[1.0, 2.0, 0.5]);
    let mut section = vec![(0.0, 0.0), (0.0, radius), (length, radius), (length, 0.0)];
    let z0 = length * random.pick(&[-1.5, 0.25, 1.25]);
    let bounds = [z0, z0 + length * random.pick(&[0.25, 1.0]), 0.0, height];
    let bounds = maybe_mirrored(random, &mut section, bounds);
    let number = (length * length) * (height * height);
    Near { query: body(random, kind, section, bounds), number, threshold: 1e-18 }
}

/// A side of length 512 crosses two edges of length 1e-9 / 512, and no vertex lies deeper than 1e-12.
fn crossing(random: &mut Random, kind: Kind) -> Near {
    let width = crate::random::step(1e-9, random.whole(-2, 2)) / 512.0;
    let radius = random.whole(8, 400) as f64 / 8.0;
    let section = vec![(0.0, 0.0), (0.0, radius), (width, radius), (width, 0.0)];
    let (low, high) = (radius - 256.0, radius + 256.0);
    let (z, far) = (width * 0.5, random.pick(&[1.0, 20.0, -1.0, -20.0]));
    let mut corners = vec![(z, low), (z, high), (far, high - 1.0)];
    if random.chance(1, 2) {
        corners.push((far, low));
    }
    let query = Query::new(kind, &[turned(random, corners), turned(random, section)], &[]);
    Near { query, number: (width * width) * (512.0 * 512.0), threshold: 1e-18 }
}

fn z_order(random: &mut Random, kind: Kind) -> Near {
    let threshold = random.pick(&[0.0, 5.0, -3.7, 1e-9, 25.0]);
    let (number, (r0, r1)) = (random.near(threshold), radii(random));
    let section = bar(random);
    Near { query: body(random, kind, section, [threshold, number, r0, r1]), number, threshold }
}

fn r_order(random: &mut Random, kind: Kind) -> Near {
    let threshold = random.pick(&[0.0, 5.0, 3.7, 1e-9, 25.0]);
    let number = random.near(threshold);
    let section = bar(random);
    Near { query: body(random, kind, section, [-3.0, 2.5, threshold, number]), number, threshold }
}

/// A body around the vertex (0, 0), its nearest side `depth` away and of length `side`.
fn around_origin(random: &mut Random, kind: Kind, depth: f64, side: f64) -> Query {
    let far = random.pick(&[0.5, 2.0, 30.0]);
    let mut corners = match random.below(3) {
        0 => vec![(-side * 0.5, -depth), (side * 0.5, -depth), (0.0, far)],
        1 => vec![(-side * 0.5, -depth), (side * 0.5, -depth), (side * 0.5, far), (-side * 0.5, far)],
        _ => vec![(-side * 0.25, -depth), (side * 0.75, -depth), (side, far), (-side, far + 1.0)],
    };
    if random.chance(1, 3) {
        corners.iter_mut().for_each(|corner| *corner = (corner.1, corner.0));
    }
    let section = bar(random);
    Query::new(kind, &[turned(random, corners), turned(random, section)], &[])
}

fn section_vertex(random: &mut Random, kind: Kind) -> Near {
    let number = random.near(1e-9);
    let side = random.pick(&[8.0, 4.0, 64.0]);
    Near { query: around_origin(random, kind, number, side), number, threshold: 1e-9 }
}

fn section_boundary(random: &mut Random, kind: Kind) -> Near {
    let number = random.near(1e-12);
    let depth = random.sign(number);
    Near { query: around_origin(random, kind, depth, 8192.0), number, threshold: 1e-12 }
}

/// A side of length 2^k at depth 1e-9 / 2^k, before or behind the vertex.
fn cross_product(random: &mut Random, kind: Kind) -> Near {
    let side = random.pick(&[0.25, 0.5, 1.0, 8.0, 64.0, 1024.0]);
    let number = random.near(1e-9);
    let depth = random.sign(number / side);
    Near { query: around_origin(random, kind, depth, side), number, threshold: 1e-9 }
}
