//! Document 01's cylinders with the numbers of request (vi) in their places, written from the two texts: a second
//! implementation of the walk, beside the Rust's, which has one setting. Box and point distance come with their edges, by
//! document 01's steps. The judge compares the whole walk with the Rust's at the finest settings; at others each box is compared.

use edges::Hit;
use exact_hypot::hypot;
use table::{Axis, FINEST, Settings};

/// Boxes measured, the most pieces that waited at any one time, and whether the walk was cut.
#[derive(Clone, Copy, Debug, PartialEq)]
pub struct Walked {
    pub hit: Hit,
    pub boxes: u32,
    pub waiting: u32,
    pub cut: bool,
}

/// The section's vertices.
pub type Section = [(f64, f64)];

fn compared(section: &Section, z: (f64, f64), radii: (f64, f64)) -> Hit {
    edges::aabb(section, [z.0, z.1, radii.0, radii.1]).expect("well formed")
}

fn by_steps(section: &Section, z: (f64, f64), radii: (f64, f64)) -> Hit {
    edges::box_by_steps(section, [z.0, z.1, radii.0, radii.1])
}

fn one_box(section: &Section, z: (f64, f64), radii: (f64, f64)) -> Walked {
    Walked { hit: compared(section, z, radii), boxes: 1, waiting: 0, cut: false }
}

/// x0, x1: the sorted ends; yc, zc: the means.
#[derive(Clone, Copy)]
pub struct Band {
    x0: f64,
    x1: f64,
    yc: f64,
    zc: f64,
    radius: f64,
}

fn sorted(a: f64, b: f64) -> (f64, f64) {
    if a <= b { (a, b) } else { (b, a) }
}

impl Band {
    /// The body is ax, ay, az, bx, by, bz, radius, along X.
    pub fn new([ax, ay, az, bx, by, bz, radius]: [f64; 7]) -> Band {
        let (x0, x1) = sorted(ax, bx);
        Band { x0, x1, yc: (ay + by) * 0.5, zc: (az + bz) * 0.5, radius }
    }

    /// z0 and z1, the ends of the cylinder's width.
    pub fn width(&self) -> (f64, f64) {
        (self.zc - self.radius, self.zc + self.radius)
    }

    fn half_width(&self, z: f64) -> f64 {
        let square = self.radius * self.radius - (z - self.zc) * (z - self.zc);
        if square > 0.0 { square.sqrt() } else { 0.0 }
    }

    /// The least and the greatest radius of the rectangle x0..x1, yc ± half width.
    fn span(&self, half_width: f64) -> (f64, f64) {
        let (y0, y1) = (self.yc - half_width, self.yc + half_width);
        let nearest = |low: f64, high: f64| if low > 0.0 { low } else { high.min(0.0) };
        let corners = [(self.x0, y0), (self.x0, y1), (self.x1, y0), (self.x1, y1)].map(|(x, y)| hypot(x, y));
        (hypot(nearest(self.x0, self.x1), nearest(y0, y1)), corners.into_iter().fold(0.0, f64::max))
    }

    /// The least, the greatest and the mean radius at z.
    pub fn radii(&self, z: f64) -> [f64; 3] {
        let (least, greatest) = self.span(self.half_width(z));
        [least, greatest, (least + greatest) * 0.5]
    }

    /// The spans at the piece's least and greatest half width, joined, and the piece's variation.
    fn piece(&self, (left, right): (f64, f64)) -> ((f64, f64), f64) {
        let middle = if self.zc < left {
            left
        } else if self.zc > right {
            right
        } else {
            self.zc
        };
        let narrow = self.span(self.half_width(left).min(self.half_width(right)));
        let wide = self.span(self.half_width(middle));
        let apart = |a: f64, b: f64| sorted(a, b).1 - sorted(a, b).0;
        let variation = apart(narrow.0, wide.0).max(apart(narrow.1, wide.1)).max(0.0);
        ((narrow.0.min(wide.0), narrow.1.max(wide.1)), variation)
    }
}

/// The starting distance: the strictly smallest first, over n intervals, sample i at z0 + (z1 - z0)·(i/n).
pub fn sampled(section: &Section, band: &Band, intervals: u32) -> Hit {
    let (z0, z1) = band.width();
    let mut best = Hit { distance: f64::INFINITY, witness: (band.zc, 0.0), edge: 0 };
    for i in 0..=intervals {
        let z = z0 + (z1 - z0) * (f64::from(i) / f64::from(intervals));
        for radius in band.radii(z) {
            let hit = edges::point_by_steps(section, (z, radius));
            if hit.distance < best.distance {
                best = hit;
            }
        }
    }
    best
}

fn walk(section: &Section, band: &Band, settings: Settings) -> Walked {
    let Settings { tolerance, most, intervals } = settings;
    let box_distance = if settings == FINEST { by_steps } else { compared };
    let mut best = sampled(section, band, intervals);
    let (mut least, mut boxes, mut waiting, mut pieces) = (f64::INFINITY, 0, 1, vec![band.width()]);
    while let Some((left, right)) = pieces.pop() {
        if boxes == most {
            return Walked { hit: Hit { distance: least, ..best }, boxes, waiting, cut: true };
        }
        boxes += 1;
        let (radii, variation) = band.piece((left, right));
        let hit = box_distance(section, (left, right), radii);
        least = least.min(hit.distance);
        if hit.distance > best.distance + 1e-12 {
            continue;
        }
        if hit.distance + variation < best.distance {
            best = Hit { distance: hit.distance + variation, ..hit };
        }
        if variation > tolerance && right - left > tolerance {
            let middle = (left + right) * 0.5;
            pieces.extend([(left, middle), (middle, right)]);
            waiting = waiting.max(pieces.len() as u32);
        }
    }
    Walked { hit: best, boxes, waiting, cut: false }
}

/// None where the axis is neither along nor across the spindle.
pub fn cylinder(section: &Section, body: [f64; 7], settings: Settings) -> Option<Walked> {
    let [ax, ay, az, bx, by, bz, radius] = body;
    let band = match table::axis(body)? {
        Axis::Axial => {
            let far = hypot((ax + bx) * 0.5, (ay + by) * 0.5);
            return Some(one_box(section, sorted(az, bz), ((far - radius).max(0.0), far + radius)));
        }
        Axis::AlongX => Band::new(body),
        Axis::AlongY => Band::new([ay, ax, az, by, bx, bz, radius]),
    };
    if radius <= 1e-15 {
        return Some(one_box(section, (band.zc, band.zc), band.span(0.0)));
    }
    Some(walk(section, &band, settings))
}
