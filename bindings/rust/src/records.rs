//! Point, sphere, box and cylinder beside a slice of vertices, by the archive that takes them as records.
//!
//! The slice is judged anew at each call.

use crate::{Aabb, Cylinder, CylinderHit, Hit, Point, Refusal, Sphere, Vertex, raw, refusal::accepted};

fn hit(reply: raw::Reply) -> Result<Hit, Refusal> {
    accepted(reply.number)?;
    let raw::Reply { distance, witness_z, witness_radius, edge, .. } = reply;
    Ok(Hit { distance, witness_z, witness_radius, edge })
}

/// Distance of a point, the section as vertices. Refusals 2 to 6.
pub fn point_of(section: &[Vertex], point: Point) -> Result<Hit, Refusal> {
    let place = raw::Place { x: point.x, y: point.y, z: point.z };
    // SAFETY (here and below): the slice is valid for its length.
    hit(unsafe { raw::jorghipa_point_of(section.as_ptr(), section.len(), place) })
}

/// Distance of a sphere, the section as vertices. Refusals 2 to 6 and 9.
pub fn sphere_of(section: &[Vertex], sphere: Sphere) -> Result<Hit, Refusal> {
    let Point { x, y, z } = sphere.center;
    let ball = raw::Ball { x, y, z, radius: sphere.radius };
    hit(unsafe { raw::jorghipa_sphere_of(section.as_ptr(), section.len(), ball) })
}

/// Distance of a box, the section as vertices. Refusals 2 to 6 and 10.
pub fn box_of(section: &[Vertex], bounds: Aabb) -> Result<Hit, Refusal> {
    let Aabb { z0, z1, r0, r1 } = bounds;
    hit(unsafe { raw::jorghipa_box_of(section.as_ptr(), section.len(), raw::Bounds { z0, z1, r0, r1 }) })
}

/// Distance of a cylinder, the section as vertices. Refusals 2 to 6, 9 and 11.
pub fn cylinder_of(section: &[Vertex], cylinder: Cylinder) -> Result<CylinderHit, Refusal> {
    let Cylinder { a, b, radius } = cylinder;
    let bar = raw::Bar { ax: a.x, ay: a.y, az: a.z, bx: b.x, by: b.y, bz: b.z, radius };
    let reply = unsafe { raw::jorghipa_cylinder_of(section.as_ptr(), section.len(), bar) };
    accepted(reply.number)?;
    let raw::CylinderReply { distance, witness_z, witness_radius, edge, boxes, waiting, cut, .. } = reply;
    let hit = Hit { distance, witness_z, witness_radius, edge };
    let count = |n: usize| u32::try_from(n).expect("at most 8,192");
    Ok(CylinderHit { hit, boxes: count(boxes), waiting: count(waiting), cut })
}
