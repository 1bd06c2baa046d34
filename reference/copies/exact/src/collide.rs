// CHANGED by make_copies from published/collide.rs (CAMpanion, crates/mesh/src/collide.rs; MIT OR Apache-2.0):
// only the records Cylinder, Sphere and CollisionHit and TOUCH_SLACK are kept.

use crate::Vec3;

/// Contact at exactly the clearance distance is allowed. Collision is `distance + slack < clearance`.
pub const TOUCH_SLACK: f64 = 1e-9;

/// A finite right circular cylinder. `a` and `b` are the cap centres.
#[derive(Clone, Copy, Debug, PartialEq)]
pub struct Cylinder {
    pub a: Vec3,
    pub b: Vec3,
    pub radius: f64,
}

/// A solid sphere.
#[derive(Clone, Copy, Debug, PartialEq)]
pub struct Sphere {
    pub center: Vec3,
    pub radius: f64,
}

/// Signed distance from a body to an obstacle, with a witness point on the obstacle.
#[derive(Clone, Copy, Debug, PartialEq)]
pub struct CollisionHit {
    pub point: Vec3,
    pub distance: f64,
}
