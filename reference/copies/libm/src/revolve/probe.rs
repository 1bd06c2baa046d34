//! Reads the private functions of the module above, on vertices as given: nothing is dropped on the way,
//! and the witness stays a (z, radius) pair. Added; not part of the published text.

use super::*;

/// z and radius.
pub type Pair = (f64, f64);

/// Distance and witness.
pub type Hit = (f64, Pair);

/// The solid whose vertices are exactly these.
pub fn solid(vertices: &[Pair]) -> RevolvedSolid {
    RevolvedSolid { points: vertices.to_vec() }
}

/// The vertices that a builder kept.
pub fn vertices(solid: &RevolvedSolid) -> &[Pair] {
    &solid.points
}

/// `signed_distance`, with the witness. The length of (x, y, 0) is hypot(x, y), libm's or the exact one.
pub fn point(solid: &RevolvedSolid, point: Vec3) -> Option<Hit> {
    finite_vec(point).then(|| solid.distance_zr(point.z, Vec3::new(point.x, point.y, 0.0).length()))
}

/// `query_sphere`, with the witness as a pair.
pub fn sphere(solid: &RevolvedSolid, sphere: Sphere) -> Option<Hit> {
    let (distance, witness) = point(solid, sphere.center)?;
    (sphere.radius >= 0.0).then_some((distance - sphere.radius, witness))
}

/// `in_section`.
pub fn inside(section: &[Pair], (z, radius): Pair) -> bool {
    in_section(section, z, radius)
}

/// `point_segment`: the distance to the edge a-b, and its closest point.
pub fn closest_point(point: Pair, (a, b): (Pair, Pair)) -> Hit {
    point_segment(point, a, b)
}

/// `seg_seg_point_on_first`.
pub fn two_segments((p1, q1): (Pair, Pair), (p2, q2): (Pair, Pair)) -> Hit {
    seg_seg_point_on_first(p1, q1, p2, q2)
}

/// `clip_segment`, to the box z0, z1, r0, r1: where the edge enters, and where it leaves.
pub fn clip((a, b): (Pair, Pair), [z0, z1, r0, r1]: [f64; 4]) -> Option<(Pair, Pair)> {
    clip_segment(a, b, z0, z1, r0, r1)
}

/// `signed_distance_convex`.
pub fn convex_distance(convex: &[Pair], (z, radius): Pair) -> f64 {
    signed_distance_convex(convex, z, radius)
}

/// `proper_cross`.
pub fn crosses((a, b): (Pair, Pair), (c, d): (Pair, Pair)) -> bool {
    proper_cross(a, b, c, d)
}
