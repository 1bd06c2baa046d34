//! Points, spheres, boxes and convex polygons.

use crate::{Aabb, Hit, Point, Refusal, Sphere, raw, refusal::accepted};

/// Runs a call that fills a hit.
pub(crate) fn hit(call: impl FnOnce(&mut f64, &mut f64, &mut f64, &mut u32) -> u32) -> Result<Hit, Refusal> {
    let mut hit = Hit { distance: 0.0, witness_z: 0.0, witness_radius: 0.0, edge: 0 };
    accepted(call(&mut hit.distance, &mut hit.witness_z, &mut hit.witness_radius, &mut hit.edge))?;
    Ok(hit)
}

/// Distance of a point. Refusals 1 to 6.
pub fn point(section: &[f64], point: Point) -> Result<Hit, Refusal> {
    let Point { x, y, z } = point;
    // SAFETY (here and below): the slices are valid for their lengths, and the places are distinct.
    hit(|d, wz, wr, edge| unsafe { raw::jorghipa_point(section.as_ptr(), section.len(), x, y, z, d, wz, wr, edge) })
}

/// Distance of a sphere. Refusals 1 to 6 and 9.
pub fn sphere(section: &[f64], sphere: Sphere) -> Result<Hit, Refusal> {
    let Point { x, y, z } = sphere.center;
    hit(|d, wz, wr, edge| unsafe {
        raw::jorghipa_sphere(section.as_ptr(), section.len(), x, y, z, sphere.radius, d, wz, wr, edge)
    })
}

/// Distance of a box. Refusals 1 to 6 and 10.
pub fn aabb(section: &[f64], bounds: Aabb) -> Result<Hit, Refusal> {
    let Aabb { z0, z1, r0, r1 } = bounds;
    hit(|d, wz, wr, edge| unsafe {
        raw::jorghipa_box(section.as_ptr(), section.len(), z0, z1, r0, r1, d, wz, wr, edge)
    })
}

/// Distance of a convex polygon, given like a section. Refusals 1 to 5, over both lists, and 6 of the section.
pub fn convex(convex: &[f64], section: &[f64]) -> Result<Hit, Refusal> {
    hit(|d, wz, wr, edge| unsafe {
        raw::jorghipa_convex(convex.as_ptr(), convex.len(), section.as_ptr(), section.len(), d, wz, wr, edge)
    })
}
