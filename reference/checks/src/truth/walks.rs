//! The bounds on cylinders across the spindle: what the library says of one, judged by the distance of its footprint.

use super::footprint::{self, Footprint, Outline};
use super::place::{Place, Vertex, inside, sound};
use table::{Axis, Settings};

/// What is claimed of a walk. The third bound is looked at only where V is at least 64 times the rest.
pub const BOUNDS: [&str; 3] = ["uncut, of V + M 2^-22", "cut, of M 2^-22", "uncut, of V alone, V from M 2^-16 on"];

/// Shares below these are not told apart.
pub const LEAST: [f64; 3] = [1.0 / 1024.0, 1.0 / (1 << 20) as f64, 1.0 / 1024.0];

/// Boxes that branch and bound may take.
const MOST: usize = 400_000;

#[derive(Clone, Debug)]
pub struct Told<'a> {
    pub section: &'a [Vertex],
    pub body: [f64; 7],
    pub settings: Settings,
    pub distance: f64,
    pub cut: bool,
}

#[derive(Clone, Copy, Debug)]
pub struct Found {
    pub bound: usize,
    pub share: f64,
    pub exceeded: bool,
}

/// min(R, max(τ, √(2 R τ))).
pub fn margin(radius: f64, tolerance: f64) -> f64 {
    radius.min(tolerance.max((2.0 * radius * tolerance).sqrt()))
}

impl Told<'_> {
    /// A power of two, at least 1,024, that no given number exceeds.
    fn scale(&self) -> f64 {
        let given = self.section.iter().flat_map(|v| [v.0, v.1]).chain(self.body);
        let greatest = given.fold(0.0, |most: f64, x| most.max(x.abs()));
        let mut scale = 1024.0;
        while scale < greatest {
            scale *= 2.0;
        }
        scale
    }

    /// The body with its axis along X.
    fn along_x(&self) -> Option<[f64; 7]> {
        let [ax, ay, az, bx, by, bz, radius] = self.body;
        match table::axis(self.body)? {
            Axis::Axial => None,
            Axis::AlongX => Some(self.body),
            Axis::AlongY => Some([ay, ax, az, by, bx, bz, radius]),
        }
    }

    /// Whether one point of the cylinder is inside a sound section: then all of it is, or an edge meets it.
    fn inside(&self, [ax, ay, az, _, by, bz, _]: [f64; 7]) -> bool {
        sound(self.section) && inside(self.section, Place { x: ax, y: (ay + by) * 0.5, z: (az + bz) * 0.5 })
    }
}

/// All bounds that apply. V is multiplied by `factor`, which is 1. A share below that of `worst` need not be exact.
pub fn judge(told: &Told, factor: f64, worst: [f64; 3]) -> Vec<Found> {
    let body = told.along_x().expect("a cylinder across the spindle");
    let scale = told.scale();
    let rest = scale / (1u64 << 22) as f64;
    let wide = margin(told.body[6], told.settings.tolerance) * factor;
    let asked: Vec<(usize, f64)> = match told.cut {
        true => vec![(1, rest)],
        false if wide >= 64.0 * rest => vec![(0, wide + rest), (2, wide)],
        false => vec![(0, wide + rest)],
    };
    // Below the worst share seen, or known closely and on one side of the bound.
    let enough = |low: f64, high: f64| {
        let (by, at_least) = (told.distance - low, told.distance - high);
        let known = |k: usize, most: f64| high - low <= LEAST[k] * most && (by <= most || at_least > most);
        asked.iter().all(|&(k, most)| by <= worst[k].max(LEAST[k]) * most || known(k, most))
    };
    let (low, _) = match told.distance <= 0.0 || told.inside(body) {
        true => (0.0, 0.0),
        false => footprint::distance(&Footprint::new(body), &Outline::new(told.section), MOST, enough),
    };
    let slack = footprint::SLACK * scale;
    let found = |&(bound, most): &(usize, f64)| {
        let share = (told.distance - (low - slack).max(0.0)) / most;
        // The third bound is a part of the first: nothing more is claimed of it.
        Found { bound, share, exceeded: bound != 2 && share > 1.0 && told.distance > 0.0 }
    };
    asked.iter().map(found).collect()
}
