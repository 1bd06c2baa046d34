// CHANGED by make_copies from published/lib.rs (CAMpanion, crates/mesh/src/lib.rs; MIT OR Apache-2.0):
// only Vec3 with new, sub, scale and length is kept, and its hypot is the exact one.

mod collide;
mod revolve;

pub use collide::{CollisionHit, Cylinder, Sphere, TOUCH_SLACK};
pub use revolve::{RevolvedSolid, aabb_polygon_distance, convex_polygon_distance};
pub use revolve::{probe, trace};
use exact_hypot::ExactHypot;

/// A position or free vector in millimetres.
///
/// Fields are public so callers can build values directly. [`Mesh::new`] is what rejects
/// non-finite coordinates.
#[derive(Clone, Copy, Debug, PartialEq)]
pub struct Vec3 {
    pub x: f64,
    pub y: f64,
    pub z: f64,
}

impl Vec3 {
    pub const fn new(x: f64, y: f64, z: f64) -> Self {
        Self { x, y, z }
    }

    pub const fn sub(self, other: Self) -> Self {
        Self { x: self.x - other.x, y: self.y - other.y, z: self.z - other.z }
    }

    pub const fn scale(self, factor: f64) -> Self {
        Self { x: self.x * factor, y: self.y * factor, z: self.z * factor }
    }

    pub fn length(self) -> f64 {
        self.x.exact_hypot(self.y).exact_hypot(self.z)
    }
}
