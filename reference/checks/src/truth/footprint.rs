//! The straightened cylinder across the spindle in the half plane, where it has every radius between two at each offset from its
//! middle, and its distance to the edges by branch and bound over the offset.
//!
//! In f64s. Let M bound all given numbers and u be 2^-53; then no number here exceeds 4 M. A piece's box errs by less than
//! 32 u M, a corner's distance to an edge, or an end's to a box, by less than 64 u 4 M: 2^9 u M, or M 2^-44, pays for all.

use super::place::{Vertex, edges};
use std::cmp::Ordering;
use std::collections::BinaryHeap;

/// What a bound of [`distance`] may be off by, as a share of M.
pub const SLACK: f64 = 1.0 / (1u64 << 44) as f64;

#[derive(Clone, Copy, Debug)]
pub struct Footprint {
    /// The least and the greatest magnitude along the cylinder's axis.
    near: f64,
    far: f64,
    /// The middle's magnitude across it.
    side: f64,
    middle: f64,
    radius: f64,
}

/// z0, z1, r0, r1.
type Bounds = [f64; 4];

impl Footprint {
    /// ax, ay, az, bx, by, bz, radius, along X: between the ends in x, about the means of y and of z as f64s.
    pub fn new([ax, ay, az, bx, by, bz, radius]: [f64; 7]) -> Footprint {
        let (low, high) = (ax.min(bx), ax.max(bx));
        let near = low.max(-high).max(0.0);
        let far = low.abs().max(high.abs());
        Footprint { near, far, side: ((ay + by) * 0.5).abs(), middle: (az + bz) * 0.5, radius }
    }

    /// The half width at an offset.
    fn half(&self, s: f64) -> f64 {
        ((self.radius - s.abs()) * (self.radius + s.abs())).max(0.0).sqrt()
    }

    fn over(&self, s0: f64, s1: f64, half: f64) -> Bounds {
        let inner = (self.side - half).max(0.0);
        let outer = self.side + half;
        let length = |x: f64, y: f64| (x * x + y * y).sqrt();
        [self.middle + s0, self.middle + s1, length(self.near, inner), length(self.far, outer)]
    }

    /// A box about all that lies between two offsets.
    fn around(&self, s0: f64, s1: f64) -> Bounds {
        let widest = s0.max(-s1).max(0.0);
        self.over(s0, s1, self.half(widest))
    }

    /// What lies at an offset.
    fn at(&self, s: f64) -> Bounds {
        self.over(s, s, self.half(s))
    }
}

struct Edge {
    a: Vertex,
    b: Vertex,
    along: Vertex,
    square: f64,
    bounds: Bounds,
}

/// The edges of a section.
pub struct Outline(Vec<Edge>);

impl Outline {
    pub fn new(section: &[Vertex]) -> Outline {
        let edge = |(a, b): (Vertex, Vertex)| {
            let along = (b.0 - a.0, b.1 - a.1);
            let bounds = [a.0.min(b.0), a.0.max(b.0), a.1.min(b.1), a.1.max(b.1)];
            Edge { a, b, along, square: along.0 * along.0 + along.1 * along.1, bounds }
        };
        Outline(edges(section).map(edge).collect())
    }

    /// The distance of a box to the nearest edge.
    fn distance(&self, bounds: &Bounds) -> f64 {
        let mut least = f64::INFINITY;
        for edge in &self.0 {
            if apart(&edge.bounds, bounds) < least {
                least = least.min(edge.squared(bounds));
            }
        }
        least.sqrt()
    }
}

/// How far two ranges are apart, 0 if they meet.
fn gap(a0: f64, a1: f64, b0: f64, b1: f64) -> f64 {
    (a0 - b1).max(b0 - a1).max(0.0)
}

/// The square of the distance of two boxes.
fn apart(a: &Bounds, b: &Bounds) -> f64 {
    let (z, r) = (gap(a[0], a[1], b[0], b[1]), gap(a[2], a[3], b[2], b[3]));
    z * z + r * r
}

fn corners(b: &Bounds) -> [Vertex; 4] {
    [(b[0], b[2]), (b[1], b[2]), (b[1], b[3]), (b[0], b[3])]
}

impl Edge {
    /// Whether the box meets the edge, as far as rounding tells: 0 is then its distance.
    fn meets(&self, bounds: &Bounds) -> bool {
        if apart(&self.bounds, bounds) > 0.0 {
            return false;
        }
        let (ez, er) = self.along;
        let (mut low, mut high, mut slack) = (f64::INFINITY, f64::NEG_INFINITY, 0f64);
        for (z, r) in corners(bounds) {
            let (first, second) = ((z - self.a.0) * er, (r - self.a.1) * ez);
            (low, high) = (low.min(first - second), high.max(first - second));
            slack = slack.max(first.abs() + second.abs());
        }
        slack *= 4.0 * f64::EPSILON;
        low <= slack && high >= -slack
    }

    fn squared_to(&self, p: Vertex) -> f64 {
        let (wz, wr) = (p.0 - self.a.0, p.1 - self.a.1);
        let foot = if self.square < 1e-60 { 0.0 } else { (wz * self.along.0 + wr * self.along.1) / self.square };
        let foot = foot.clamp(0.0, 1.0);
        let (z, r) = (wz - foot * self.along.0, wr - foot * self.along.1);
        z * z + r * r
    }

    /// The square of the distance to a box: apart, it is a corner's to the edge, or an end's to the box.
    fn squared(&self, bounds: &Bounds) -> f64 {
        if self.meets(bounds) {
            return 0.0;
        }
        let ends = [self.a, self.b].map(|v| apart(&[v.0, v.0, v.1, v.1], bounds));
        corners(bounds).into_iter().map(|c| self.squared_to(c)).fold(ends[0].min(ends[1]), f64::min)
    }
}

/// A piece from one offset to another, and the distance of its box.
struct Piece {
    low: f64,
    s0: f64,
    s1: f64,
}

impl PartialEq for Piece {
    fn eq(&self, other: &Piece) -> bool {
        self.low == other.low
    }
}

impl Eq for Piece {}

impl PartialOrd for Piece {
    fn partial_cmp(&self, other: &Piece) -> Option<Ordering> {
        Some(self.cmp(other))
    }
}

impl Ord for Piece {
    /// The one of the least distance is the greatest.
    fn cmp(&self, other: &Piece) -> Ordering {
        other.low.total_cmp(&self.low)
    }
}

/// Two bounds on the distance of the footprint to the edges, each within [`SLACK`]: as close as `enough` asks, or as `most` boxes
/// bring them.
pub fn distance(shape: &Footprint, outline: &Outline, most: usize, enough: impl Fn(f64, f64) -> bool) -> (f64, f64) {
    let radius = shape.radius;
    let piece = |s0: f64, s1: f64| Piece { low: outline.distance(&shape.around(s0, s1)), s0, s1 };
    let mut high = outline.distance(&shape.at(0.0));
    let mut waiting = BinaryHeap::from([piece(-radius, radius)]);
    let mut boxes = 1;
    while let Some(Piece { low, s0, s1 }) = waiting.pop() {
        let middle = (s0 + s1) * 0.5;
        if low >= high || boxes >= most || enough(low, high) || middle <= s0 || middle >= s1 {
            return (low.min(high), high);
        }
        high = high.min(outline.distance(&shape.at(middle)));
        waiting.extend([piece(s0, middle), piece(middle, s1)]);
        boxes += 2;
    }
    (high, high)
}
