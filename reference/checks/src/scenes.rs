//! The sections and the bodies that are timed.

use crate::judge::vertices;
use crate::random::Random;
use jorghipa::{Cylinder, Point, Settings, bare};

/// A stepped bar of `count` vertices, z and radius in turn.
pub fn section(count: usize) -> Vec<f64> {
    let steps = count - 2;
    let mut list: Vec<f64> = (0..steps)
        .flat_map(|i| [200.0 * (i / 2 * 2) as f64 / steps as f64, 10.0 + 7.3 * (i.div_ceil(2) % 5) as f64])
        .collect();
    let last = list[list.len() - 2];
    list.extend([last, 0.0, 0.0, 0.0]);
    list
}

/// An octagon about (z, r).
fn octagon(z: f64, r: f64) -> Vec<f64> {
    (0..8).flat_map(|i| [z + 3.0 * (0.785 * f64::from(i)).cos(), r + 3.0 * (0.785 * f64::from(i)).sin()]).collect()
}

/// Where the bodies stand: about the section, most of them outside.
pub struct Body {
    pub x: f64,
    pub y: f64,
    pub z: f64,
    pub radius: f64,
    /// A convex body about its place, z and radius in turn; and the same as corners.
    pub octagon: Vec<f64>,
    pub corners: Vec<(f64, f64)>,
}

/// The next of a stream of them.
pub fn body(random: &mut Random) -> Body {
    let (x, y, z) = (random.between(5.0, 80.0), random.between(0.0, 40.0), random.between(-40.0, 240.0));
    let octagon = octagon(z, x);
    Body { x, y, z, radius: random.between(0.5, 8.0), corners: vertices(&octagon), octagon }
}

/// A bar from the body's place on, along the spindle or across it.
pub fn bar(body: &Body, across: bool) -> Cylinder {
    let a = Point { x: body.x, y: body.y, z: body.z };
    let b = if across { Point { x: body.x + 40.0, ..a } } else { Point { z: body.z + 40.0, ..a } };
    Cylinder { a, b, radius: body.radius }
}

/// The first bars across the spindle, of a stream of them, whose walk beside this section is cut, or is not. A walk measures up
/// to 8,192 boxes a call, so that there are few of them.
pub fn bars_across(list: &[f64], cut: bool) -> Vec<Cylinder> {
    let mut random = Random::new(3, 0);
    let some = if list.len() > 32 { 1 } else { 4 };
    let walked = |&c: &Cylinder| bare::cylinder(list, c, Settings::FINEST).is_ok_and(|h| h.boxes > 1 && h.cut == cut);
    std::iter::repeat_with(|| bar(&body(&mut random), true)).filter(walked).take(some).collect()
}
