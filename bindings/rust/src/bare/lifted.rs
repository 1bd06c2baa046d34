//! The same distances with the witness in the machine's axes.

use crate::{Cylinder, LiftedCylinderHit, LiftedHit, Point, Refusal, Sphere, raw, refusal::accepted};

/// Runs a call that fills a lifted hit: distance, witness x, y and z, edge.
fn lifted(call: impl FnOnce(&mut f64, &mut f64, &mut f64, &mut f64, &mut u32) -> u32) -> Result<LiftedHit, Refusal> {
    let mut hit = LiftedHit { distance: 0.0, witness: Point { x: 0.0, y: 0.0, z: 0.0 }, edge: 0 };
    let Point { x, y, z } = &mut hit.witness;
    accepted(call(&mut hit.distance, x, y, z, &mut hit.edge))?;
    Ok(hit)
}

/// Distance of a point, its witness lifted. Refusals 1 to 6.
pub fn lifted_point(section: &[f64], point: Point) -> Result<LiftedHit, Refusal> {
    let (list, count, Point { x, y, z }) = (section.as_ptr(), section.len(), point);
    // SAFETY (here and below): the slice is valid for its length, and the places are distinct.
    lifted(|d, wx, wy, wz, edge| unsafe { raw::jorghipa_lifted_point(list, count, x, y, z, d, wx, wy, wz, edge) })
}

/// Distance of a sphere, its witness lifted. Refusals 1 to 6 and 9.
pub fn lifted_sphere(section: &[f64], sphere: Sphere) -> Result<LiftedHit, Refusal> {
    let (list, count, Point { x, y, z }) = (section.as_ptr(), section.len(), sphere.center);
    lifted(|d, wx, wy, wz, edge| unsafe {
        raw::jorghipa_lifted_sphere(list, count, x, y, z, sphere.radius, d, wx, wy, wz, edge)
    })
}

/// Distance of a cylinder at the finest settings, its witness lifted. Refusals 1 to 6, 9 and 11.
pub fn lifted_cylinder(section: &[f64], cylinder: Cylinder) -> Result<LiftedCylinderHit, Refusal> {
    let Cylinder { a, b, radius } = cylinder;
    let (mut boxes, mut waiting, mut cut) = (0, 0, 0);
    let (list, count, counts) = (section.as_ptr(), section.len(), (&mut boxes, &mut waiting, &mut cut));
    let hit = lifted(|d, wx, wy, wz, edge| unsafe {
        raw::jorghipa_lifted_cylinder(
            list, count, a.x, a.y, a.z, b.x, b.y, b.z, radius, d, wx, wy, wz, edge, counts.0, counts.1, counts.2,
        )
    })?;
    Ok(LiftedCylinderHit { hit, boxes, waiting, cut: cut != 0 })
}
