//! Thresholds of the settings: the ends of the tolerance's range, and the tolerance as the walk compares it.

use super::{Make, Near, bar, turned};
use crate::query::{Kind, Query, numbers_of};
use crate::random::Random;
use table::Settings;

pub const SETTINGS: &[(&str, Make)] = &[
    ("tolerance 1e-9", finest),
    ("tolerance 1", coarsest),
    ("variation, the tolerance", variation),
    ("width, the tolerance", width),
];

fn with(random: &mut Random, kind: Kind, body: [f64; 7], tolerance: f64) -> Query {
    let section = bar(random);
    let (most, intervals) = (random.whole(1, 64) as u32, random.pick(&[1, 2, 3, 16, 63, 64]));
    let numbers = [body.as_slice(), &numbers_of(Settings { tolerance, most, intervals })].concat();
    Query::new(kind, &[turned(random, section)], &numbers)
}

/// Along the spindle, along X and along Y.
fn finest(random: &mut Random, kind: Kind) -> Near {
    range(random, kind, 1e-9)
}

fn coarsest(random: &mut Random, kind: Kind) -> Near {
    range(random, kind, 1.0)
}

fn range(random: &mut Random, kind: Kind, threshold: f64) -> Near {
    let number = random.near(threshold);
    let z = random.pick(&[-3.0, 1.0, 60.0]);
    let [x, y, dz] = random.pick(&[[0.0, 0.0, 8.0], [8.0, 0.0, 0.0], [0.0, -8.0, 0.0]]);
    let body = [0.5, 0.25, z, 0.5 + x, 0.25 + y, z + dz, random.pick(&[0.0, 1e-15, 0.25, 2.0])];
    Near { query: with(random, kind, body, number), number, threshold }
}

/// A tolerance of every size, and one beside it.
fn pair(random: &mut Random) -> (f64, f64) {
    let threshold = 10f64.powf(random.between(-8.9, -0.1));
    (random.near(threshold), threshold)
}

/// A bar of hardly any length on the spindle: its greatest radius varies by the cylinder's radius.
fn variation(random: &mut Random, kind: Kind) -> Near {
    let (number, threshold) = pair(random);
    let z = random.pick(&[0.0, -1.0, -2.0]);
    Near { query: with(random, kind, [-1e-300, 0.0, z, 1e-300, 0.0, z, number], threshold), number, threshold }
}

/// The half from 0 on is exactly as wide as the radius. At this y the greatest radius rounds so that it varies by more.
fn width(random: &mut Random, kind: Kind) -> Near {
    let (number, threshold) = pair(random);
    let mut y = 0.5;
    let mut tries = 0;
    while (y + number) - y <= threshold && tries < 64 {
        y = random.between(0.25, 0.875);
        tries += 1;
    }
    Near { query: with(random, kind, [-1e-300, y, 0.0, 1e-300, y, 0.0, number], threshold), number, threshold }
}
