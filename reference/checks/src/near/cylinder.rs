//! Thresholds of cylinder distance: the direction, the line, and the walk.

use super::{Make, Near, bar, turned};
use crate::query::{Kind, Query};
use crate::random::Random;

pub const CYLINDER: &[(&str, Make)] = &[
    ("radius 0", radius_zero),
    ("axial, direction z 1 - 1e-8", axial),
    ("radial, direction z 1e-8", radial_z),
    ("radial, direction x 1 - 1e-8", radial_x),
    ("line, radius 1e-15", line),
    ("variation 1e-9", variation),
    ("width 1e-9", width),
    ("dropped piece, best + 1e-12", dropped),
    ("along Y, direction z 1e-8", along_y_z),
    ("along Y, direction y 1 - 1e-8", along_y_y),
];

/// A cylinder at (x, y, z) with this difference of its ends, given either way round.
fn cylinder(random: &mut Random, kind: Kind, at: [f64; 3], delta: [f64; 3], radius: f64) -> Query {
    let section = bar(random);
    let (a, b) = (at, [at[0] + delta[0], at[1] + delta[1], at[2] + delta[2]]);
    let (a, b) = if random.chance(1, 2) { (a, b) } else { (b, a) };
    Query::new(kind, &[turned(random, section)], &[a[0], a[1], a[2], b[0], b[1], b[2], radius])
}

/// One component of the direction, as the Rust finds it.
fn direction(delta: [f64; 3], component: usize) -> f64 {
    let length = exact_hypot::hypot(exact_hypot::hypot(delta[0], delta[1]), delta[2]);
    (delta[component] * (1.0 / length)).abs()
}

fn radius_zero(random: &mut Random, kind: Kind) -> Near {
    let number = random.near(0.0);
    let z = random.pick(&[-3.0, 1.0, 60.0]);
    let delta = random.pick(&[[0.0, 0.0, 8.0], [8.0, 0.0, 0.0]]);
    Near { query: cylinder(random, kind, [0.5, 0.25, z], delta, number), number, threshold: 0.0 }
}

/// A tilt whose direction comes out at 1 - 1e-8, about 1.414e-4 in either or both other components.
fn tilt(random: &mut Random) -> f64 {
    (2e-8f64 + 3e-16).sqrt() * (1.0 + random.between(-4e-8, 4e-8))
}

fn axial(random: &mut Random, kind: Kind) -> Near {
    let (tilt, length) = (tilt(random), random.pick(&[1.0, 2.0, 64.0]));
    let (x, y) = random.pick(&[(tilt, 0.0), (0.0, -tilt), (tilt * 0.6, tilt * 0.8)]);
    let delta = [x * length, y * length, length];
    let query = cylinder(random, kind, [0.0; 3], delta, 0.5);
    Near { query, number: direction(delta, 2), threshold: 1.0 - 1e-8 }
}

fn radial_z(random: &mut Random, kind: Kind) -> Near {
    let length = random.pick(&[1.0, 2.0, 64.0, -8.0]);
    let delta = [length, 0.0, random.near(1e-8) * length];
    let radius = random.pick(&[0.0, 1e-16]);
    let query = cylinder(random, kind, [0.0; 3], delta, radius);
    Near { query, number: direction(delta, 2), threshold: 1e-8 }
}

fn radial_x(random: &mut Random, kind: Kind) -> Near {
    let length = random.pick(&[1.0, 2.0, 64.0, -8.0]);
    let tilt = tilt(random);
    let delta = [length, random.sign(tilt) * length, 0.0];
    let query = cylinder(random, kind, [0.0; 3], delta, 0.0);
    Near { query, number: direction(delta, 0), threshold: 1.0 - 1e-8 }
}

/// A difference of the ends along Y, in any of the eight sign patterns.
fn along_y(random: &mut Random, x: f64, z: f64) -> [f64; 3] {
    let length = random.pick(&[1.0, 2.0, 64.0, 1e-3]);
    [x, 1.0, z].map(|share| random.sign(share * length))
}

fn along_y_z(random: &mut Random, kind: Kind) -> Near {
    let (x, z) = (random.pick(&[0.0, 1e-9, 1e-4]), random.near(1e-8));
    let delta = along_y(random, x, z);
    let radius = random.pick(&[0.0, 1e-16]);
    Near { query: cylinder(random, kind, [0.0; 3], delta, radius), number: direction(delta, 2), threshold: 1e-8 }
}

fn along_y_y(random: &mut Random, kind: Kind) -> Near {
    let (x, z) = (tilt(random), random.pick(&[0.0, 1e-9]));
    let delta = along_y(random, x, z);
    Near { query: cylinder(random, kind, [0.0; 3], delta, 0.0), number: direction(delta, 1), threshold: 1.0 - 1e-8 }
}

/// A cylinder that leans in both directions across its axis, along the spindle, along X or along Y, up to what the axis test
/// takes; a clearance of 0 behind it.
pub fn leaning(random: &mut Random, kind: Kind) -> Query {
    let length = random.pick(&[1.0, 30.0, 64.0, 1000.0, 0.3]);
    let lean = random.pick(&[1.41e-4, 1e-4, 3e-5, 1e-8, 1e-12]) * length;
    let angle = random.between(0.0, 6.3);
    let (delta, radius) = match random.below(3) {
        0 => ([lean * angle.cos(), lean * angle.sin(), length], random.pick(&[0.0, 0.5, 4.0])),
        direction => {
            let z = random.pick(&[0.0, 1e-9, 5e-9, 9.9e-9]) * length;
            let across = [length, random.sign(lean), random.sign(z)];
            (if direction == 1 { across } else { [across[1], across[0], across[2]] }, random.pick(&[0.0, 1e-15]))
        }
    };
    let at = [random.between(-60.0, 60.0), random.pick(&[0.0, 0.5, 12.0]), random.between(-60.0, 60.0)];
    let mut query = cylinder(random, Kind::Cylinder, at, delta, radius);
    query.numbers.push(0.0);
    Query::new(kind, &query.lists, &query.numbers)
}

fn line(random: &mut Random, kind: Kind) -> Near {
    let number = random.near(1e-15);
    let at = [random.pick(&[0.5, 60.0, 1.0]), 0.0, random.pick(&[0.0, -2.0, 1.0])];
    Near { query: cylinder(random, kind, at, [8.0, 0.0, 0.0], number), number, threshold: 1e-15 }
}

/// A bar of hardly any length on the spindle: its greatest radius varies by the cylinder's radius.
fn variation(random: &mut Random, kind: Kind) -> Near {
    let number = random.near(1e-9);
    let at = [-1e-300, 0.0, random.pick(&[0.0, -1.0, -2.0])];
    Near { query: cylinder(random, kind, at, [2e-300, 0.0, 0.0], number), number, threshold: 1e-9 }
}

/// Through the bar's face at z = 0, with hardly any length: the half from 0 on is exactly as wide as the radius, and as
/// deep as the best sample. At this y the greatest radius rounds so that it varies by more than 1e-9.
fn width(random: &mut Random, kind: Kind) -> Near {
    let number = random.near(1e-9);
    let mut y = 0.5;
    while (y + number) - y <= 1e-9 {
        y = random.between(0.25, 0.875);
    }
    let at = [-1e-300, y, 0.0];
    Near { query: cylinder(random, kind, at, [2e-300, 0.0, 0.0], number), number, threshold: 1e-9 }
}

/// Across the middle of a bar of radius and half length 10: the samples reach 10 deep, the box's corners 10 - radius.
fn dropped(random: &mut Random, kind: Kind) -> Near {
    let number = crate::random::step(10.0 - 1e-12, random.whole(-4, 4));
    let section = vec![(0.0, 0.0), (0.0, 10.0), (20.0, 10.0), (20.0, 0.0)];
    let numbers = [0.0, 0.0, 10.0, random.pick(&[30.0, 45.5, 12.0]), 0.0, 10.0, 10.0 - number];
    let query = Query::new(kind, &[turned(random, section)], &numbers);
    Near { query, number: -number, threshold: -10.0 + 1e-12 }
}
