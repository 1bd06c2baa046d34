//! Request (viii)'s number of the edge that supplied a hit's witness: document 01's steps, written from its text over the
//! Rust's own functions for one edge. The Rust has no such number. Its distance and witness must come out here too, zeros of
//! both signs as one value: `point`, `sphere`, `aabb` and `convex` panic where they do not, and are None where the Rust refuses.

use revolve_exact::probe::{self, Pair};
use revolve_exact::{Sphere, Vec3, aabb_polygon_distance, convex_polygon_distance};

/// Edge k starts at vertex k, counted from 0.
#[derive(Clone, Copy, Debug, PartialEq)]
pub struct Hit {
    pub distance: f64,
    pub witness: Pair,
    pub edge: u32,
}

impl Hit {
    fn of((distance, witness): probe::Hit, edge: u32) -> Hit {
        Hit { distance, witness, edge }
    }

    /// The other where it is strictly smaller, so that the first of equal ones stays.
    fn or_lower(self, other: Hit) -> Hit {
        if other.distance < self.distance { other } else { self }
    }
}

/// Every edge with its number; the last vertex joins the first.
pub fn edges(section: &[Pair]) -> impl Iterator<Item = (u32, (Pair, Pair))> + Clone {
    section.iter().zip(section.iter().cycle().skip(1)).zip(0..).map(|((&a, &b), k)| (k, (a, b)))
}

/// What every search starts with.
fn nowhere(section: &[Pair]) -> Hit {
    Hit { distance: f64::INFINITY, witness: section[0], edge: 0 }
}

/// The hit, which has to be the Rust's.
fn agreed(rust: Option<probe::Hit>, hit: impl FnOnce() -> Hit) -> Option<Hit> {
    let (distance, witness) = rust?;
    let hit = hit();
    let same = hit.distance == distance && hit.witness == witness;
    assert!(same, "{hit:?}, where the Rust has {distance:?} and {witness:?}");
    Some(hit)
}

/// 0 at most 1e-12 away.
fn touching(distance: f64) -> f64 {
    if distance <= 1e-12 { 0.0 } else { distance }
}

/// Point distance of z and radius, not compared. An edge counts only if an end has |radius| > 1e-9; the first strictly
/// smallest distance wins.
pub fn point_by_steps(section: &[Pair], point: Pair) -> Hit {
    let counts = |(a, b): (Pair, Pair)| a.1.abs() > 1e-9 || b.1.abs() > 1e-9;
    let counting = edges(section).filter(|&(_, edge)| counts(edge));
    let nearest =
        counting.map(|(k, edge)| Hit::of(probe::closest_point(point, edge), k)).fold(nowhere(section), Hit::or_lower);
    let distance = touching(nearest.distance);
    let negative = 0.0 < distance && distance < f64::INFINITY && probe::inside(section, point);
    Hit { distance: if negative { -distance } else { distance }, ..nearest }
}

/// Of the point x, y, z.
pub fn point(section: &[Pair], body: [f64; 3]) -> Option<Hit> {
    let [x, y, z] = body;
    let center = Vec3::new(x, y, z);
    agreed(probe::point(&probe::solid(section), center), || point_by_steps(section, (z, Vec3::new(x, y, 0.0).length())))
}

/// Of the sphere x, y, z, radius: point distance less radius.
pub fn sphere(section: &[Pair], body: [f64; 4]) -> Option<Hit> {
    let [x, y, z, radius] = body;
    let center = Vec3::new(x, y, z);
    let rust = probe::sphere(&probe::solid(section), Sphere { center, radius });
    let middle = point(section, [x, y, z])?;
    agreed(rust, || Hit { distance: middle.distance - radius, ..middle })
}

/// Of one edge and a box: a clipped edge has 0, its witness where the clip enters; any other takes the first smallest of the
/// four sides.
pub fn beside_box(edge: (Pair, Pair), bounds: [f64; 4]) -> probe::Hit {
    if let Some((enter, _)) = probe::clip(edge, bounds) {
        return (0.0, enter);
    }
    let [z0, z1, r0, r1] = bounds;
    let corners = [(z0, r0), (z1, r0), (z1, r1), (z0, r1)];
    let sides = edges(&corners).map(|(side, ends)| Hit::of(probe::two_segments(edge, ends), side));
    let nearest = sides.fold(Hit { witness: edge.0, ..nowhere(&corners) }, Hit::or_lower);
    (nearest.distance, nearest.witness)
}

/// More than 1e-9 inside every side.
fn well_inside((z, radius): Pair, [z0, z1, r0, r1]: [f64; 4]) -> bool {
    z > z0 + 1e-9 && z < z1 - 1e-9 && radius > r0 + 1e-9 && radius < r1 - 1e-9
}

/// The first smallest over all edges, axis edges too.
pub fn box_gap(section: &[Pair], bounds: [f64; 4]) -> Hit {
    edges(section).map(|(k, edge)| Hit::of(beside_box(edge, bounds), k)).fold(nowhere(section), Hit::or_lower)
}

/// The last vertex more than 1e-9 inside every side, and the edge that starts there.
pub fn last_inside(section: &[Pair], bounds: [f64; 4]) -> Option<(Pair, u32)> {
    section.iter().copied().zip(0..).filter(|&(vertex, _)| well_inside(vertex, bounds)).last()
}

/// `aabb`, not compared.
pub fn box_by_steps(section: &[Pair], bounds: [f64; 4]) -> Hit {
    let [z0, z1, r0, r1] = bounds;
    let gap = box_gap(section, bounds);
    let centre = ((z0 + z1) * 0.5, (r0 + r1) * 0.5);
    let probes =
        [centre, (z0, r0), (z1, r0), (z1, r1), (z0, r1)].into_iter().map(|probe| point_by_steps(section, probe));
    let lowest = probes.fold(Hit { distance: 0.0, ..gap }, Hit::or_lower);
    let vertex = last_inside(section, bounds);
    let (witness, edge) = vertex.unwrap_or((lowest.witness, lowest.edge));
    let through = |edge| {
        let middle = |(a, b): (Pair, Pair)| ((a.0 + b.0) * 0.5, (a.1 + b.1) * 0.5);
        probe::clip(edge, bounds).is_some_and(|clipped| well_inside(middle(clipped), bounds))
    };
    let distance = if lowest.distance < -1e-9 {
        lowest.distance
    } else if vertex.is_some() || edges(section).any(|(_, edge)| through(edge)) {
        -1e-8
    } else {
        touching(gap.distance)
    };
    Hit { distance, witness, edge }
}

/// Of the box z0, z1, r0, r1.
pub fn aabb(section: &[Pair], bounds: [f64; 4]) -> Option<Hit> {
    let [z0, z1, r0, r1] = bounds;
    agreed(aabb_polygon_distance(z0, z1, r0, r1, section), || box_by_steps(section, bounds))
}

/// Every pair of edges, the convex body's outer: the section's edge with its number, then the body's.
fn pairs<'a>(convex: &'a [Pair], section: &'a [Pair]) -> impl Iterator<Item = (u32, (Pair, Pair), (Pair, Pair))> + 'a {
    edges(convex).flat_map(move |(_, other)| edges(section).map(move |(k, edge)| (k, edge, other)))
}

fn convex_hit(convex: &[Pair], section: &[Pair]) -> Hit {
    let gap = pairs(convex, section)
        .map(|(k, edge, other)| Hit::of(probe::two_segments(edge, other), k))
        .fold(nowhere(section), Hit::or_lower);
    let corners = convex.iter().map(|&corner| point_by_steps(section, corner));
    let vertices = section.iter().zip(0..).map(|(&v, k)| Hit::of((probe::convex_distance(convex, v), v), k));
    let lowest = corners.chain(vertices).fold(Hit { distance: 0.0, ..gap }, Hit::or_lower);
    let distance = if lowest.distance < -1e-9 {
        lowest.distance
    } else if pairs(convex, section).any(|(_, edge, other)| probe::crosses(other, edge)) {
        -1e-8
    } else {
        touching(gap.distance)
    };
    Hit { distance, ..lowest }
}

/// Of a convex polygon, or of any other in its place.
pub fn convex(convex: &[Pair], section: &[Pair]) -> Option<Hit> {
    agreed(convex_polygon_distance(convex, section), || convex_hit(convex, section))
}
