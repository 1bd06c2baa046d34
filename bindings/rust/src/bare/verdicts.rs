//! Whether a body comes closer to the section than a clearance: whether distance + 1e-9 < clearance.

use crate::{Aabb, Cylinder, JudgedWalk, Point, Refusal, Sphere, raw, refusal::accepted};

/// Runs a call that gives a verdict: true is a collision.
fn verdict(call: impl FnOnce(&mut u32) -> u32) -> Result<bool, Refusal> {
    let mut collision = 0;
    accepted(call(&mut collision))?;
    Ok(collision != 0)
}

/// Whether a sphere comes closer than the clearance. Refusals 1 to 6 and 9.
pub fn verdict_sphere(section: &[f64], sphere: Sphere, clearance: f64) -> Result<bool, Refusal> {
    let Point { x, y, z } = sphere.center;
    // SAFETY (here and below): the slices are valid for their lengths.
    verdict(|collision| unsafe {
        raw::jorghipa_verdict_sphere(section.as_ptr(), section.len(), x, y, z, sphere.radius, clearance, collision)
    })
}

/// Whether a box comes closer than the clearance. Refusals 1 to 6 and 10.
pub fn verdict_box(section: &[f64], bounds: Aabb, clearance: f64) -> Result<bool, Refusal> {
    let Aabb { z0, z1, r0, r1 } = bounds;
    verdict(|collision| unsafe {
        raw::jorghipa_verdict_box(section.as_ptr(), section.len(), z0, z1, r0, r1, clearance, collision)
    })
}

/// Whether a cylinder comes closer than the clearance, judged by its distance less half of how far its ends stand apart
/// across its axis. Refusals 1 to 6, 9 and 11.
pub fn verdict_cylinder(section: &[f64], cylinder: Cylinder, clearance: f64) -> Result<bool, Refusal> {
    let Cylinder { a, b, radius } = cylinder;
    let (list, count) = (section.as_ptr(), section.len());
    verdict(|collision| unsafe {
        raw::jorghipa_verdict_cylinder(list, count, a.x, a.y, a.z, b.x, b.y, b.z, radius, clearance, collision)
    })
}

/// The same, with the boxes that were measured, the most pieces that waited, and whether the walk was cut.
pub fn verdict_walk(section: &[f64], cylinder: Cylinder, clearance: f64) -> Result<JudgedWalk, Refusal> {
    let Cylinder { a, b, radius } = cylinder;
    let (list, count, (mut boxes, mut waiting, mut cut)) = (section.as_ptr(), section.len(), (0, 0, 0));
    let counts = (&mut boxes, &mut waiting, &mut cut);
    // SAFETY: as above, and the places are distinct.
    let collision = verdict(|collision| unsafe {
        raw::jorghipa_verdict_walk(
            list, count, a.x, a.y, a.z, b.x, b.y, b.z, radius, clearance, collision, counts.0, counts.1, counts.2,
        )
    })?;
    Ok(JudgedWalk { collision, boxes, waiting, cut: cut != 0 })
}

/// Whether a convex polygon comes closer than the clearance. Refusals 1 to 5, and 6 of the section.
pub fn verdict_convex(convex: &[f64], section: &[f64], clearance: f64) -> Result<bool, Refusal> {
    let (list, count) = (convex.as_ptr(), convex.len());
    verdict(|collision| unsafe {
        raw::jorghipa_verdict_convex(list, count, section.as_ptr(), section.len(), clearance, collision)
    })
}
