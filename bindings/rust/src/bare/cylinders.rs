//! Cylinders along or across the spindle.

use super::distances;
use crate::{Cylinder, CylinderHit, Refusal, Settings, raw};

/// Distance of a cylinder. Refusals 1 to 5, 18, 6, 9 and 11, tested in this order.
pub fn cylinder(section: &[f64], cylinder: Cylinder, settings: Settings) -> Result<CylinderHit, Refusal> {
    let Cylinder { a, b, radius } = cylinder;
    let Settings { tolerance, most, intervals } = settings;
    let (mut boxes, mut waiting, mut cut) = (0, 0, 0);
    let (list, count, counts) = (section.as_ptr(), section.len(), (&mut boxes, &mut waiting, &mut cut));
    // SAFETY: the slice is valid for its length, and the places are distinct.
    let hit = distances::hit(|d, wz, wr, edge| unsafe {
        raw::jorghipa_cylinder(
            list, count, a.x, a.y, a.z, b.x, b.y, b.z, radius, tolerance, most, intervals, d, wz, wr, edge, counts.0,
            counts.1, counts.2,
        )
    })?;
    Ok(CylinderHit { hit, boxes, waiting, cut: cut != 0 })
}
