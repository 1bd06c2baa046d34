//! What the tests share: document 01's section S, and short names.
#![allow(dead_code)]

use jorghipa::*;

pub const S: [f64; 8] = [0.0, 10.0, 20.0, 10.0, 20.0, 0.0, 0.0, 0.0];

pub fn at(x: f64, y: f64, z: f64) -> Point {
    Point { x, y, z }
}

pub fn bounds(z0: f64, z1: f64, r0: f64, r1: f64) -> Aabb {
    Aabb { z0, z1, r0, r1 }
}

pub fn bar(a: Point, b: Point, radius: f64) -> Cylinder {
    Cylinder { a, b, radius }
}

/// S with this radius in its third vertex.
pub fn with_radius(radius: f64) -> [f64; 8] {
    [0.0, 10.0, 20.0, 10.0, 20.0, radius, 0.0, 0.0]
}
