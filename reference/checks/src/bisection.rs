//! The true distance between a straight bar across the spindle and a solid of revolution, by bisection. Nothing of the library
//! and nothing of document 01's walk is used: the given numbers are exact, the bar is its whole footprint in (z, radius).
//!
//! The footprint at angle t, from -90 to 90 degrees, stands at z + R·sin t and spans the radii of the rectangle near..far,
//! side ± R·cos t. A piece is bounded by its two ends and by two curves, each within its sagitta of its chord. So the least of
//! the ends' distances and of the chords', less their sagittas, is a lower bound, and that of either end an upper one. A piece is
//! halved until both agree to `BOUND`.

/// How far `gap` may lie above the least distance, the f64s' own rounding (below 1e-11 within a metre) included.
pub const BOUND: f64 = 1e-9;

/// No bar of the tables needs nearly as many pieces.
const PIECES: usize = 10_000_000;

type Place = (f64, f64);

/// The solid: the edges of a simple outline in (z, radius).
pub struct Solid {
    edges: Vec<(Place, Place)>,
}

/// A straight bar along X.
#[derive(Clone, Copy)]
pub struct Bar {
    /// Least and greatest |x|.
    near: f64,
    far: f64,
    /// |y| of the axis.
    side: f64,
    z: f64,
    radius: f64,
}

/// The footprint at one z: radii from low to high.
#[derive(Clone, Copy)]
struct Slice {
    z: f64,
    low: f64,
    high: f64,
}

fn cross(a: Place, b: Place, p: Place) -> f64 {
    (b.0 - a.0) * (p.1 - a.1) - (b.1 - a.1) * (p.0 - a.0)
}

fn to_segment(p: Place, (a, b): (Place, Place)) -> f64 {
    let (dz, dr) = (b.0 - a.0, b.1 - a.1);
    let square = dz * dz + dr * dr;
    let t = if square > 0.0 { (((p.0 - a.0) * dz + (p.1 - a.1) * dr) / square).clamp(0.0, 1.0) } else { 0.0 };
    (p.0 - (a.0 + dz * t)).hypot(p.1 - (a.1 + dr * t))
}

fn properly_cross((a, b): (Place, Place), (c, d): (Place, Place)) -> bool {
    cross(a, b, c) * cross(a, b, d) < 0.0 && cross(c, d, a) * cross(c, d, b) < 0.0
}

impl Solid {
    /// The numbers are z and radius in turn; the last vertex joins the first.
    pub fn new(numbers: &[f64]) -> Solid {
        let at = |i: usize| (numbers[2 * i], numbers[2 * i + 1]);
        let count = numbers.len() / 2;
        Solid { edges: (0..count).map(|i| (at(i), at((i + 1) % count))).collect() }
    }

    fn holds(&self, p: Place) -> bool {
        let beyond = |&&(a, b): &&(Place, Place)| {
            (a.1 > p.1) != (b.1 > p.1) && a.0 + (p.1 - a.1) / (b.1 - a.1) * (b.0 - a.0) > p.0
        };
        self.edges.iter().filter(beyond).count() % 2 == 1
    }

    /// How deep p lies below the surface, which edges along the axis are no part of; below 0 outside, by its distance.
    fn depth(&self, p: Place) -> f64 {
        let least = |surface: bool| {
            let edges = self.edges.iter().filter(|(a, b)| !surface || a.1 > 0.0 || b.1 > 0.0);
            edges.map(|&edge| to_segment(p, edge)).fold(f64::INFINITY, f64::min)
        };
        if self.holds(p) { least(true) } else { -least(false) }
    }

    /// The distance of a segment from the outline; 0 where it crosses it.
    fn outline_gap(&self, segment: (Place, Place)) -> f64 {
        let from_edge = |&edge: &(Place, Place)| {
            if properly_cross(edge, segment) {
                return 0.0;
            }
            to_segment(segment.0, edge).min(to_segment(segment.1, edge)).min(to_segment(edge.0, segment))
        };
        self.edges.iter().map(from_edge).fold(f64::INFINITY, f64::min)
    }

    /// The distance of a slice from the solid; 0 where they meet.
    fn slice_gap(&self, a: Slice) -> f64 {
        if self.holds((a.z, a.low)) { 0.0 } else { self.outline_gap(((a.z, a.low), (a.z, a.high))) }
    }

    /// Whether the outline's first vertex lies between two slices.
    fn starts_between(&self, a: Slice, b: Slice) -> bool {
        let p = self.edges[0].0;
        let (above, below) =
            (cross((a.z, a.low), (b.z, b.low), p) >= 0.0, cross((a.z, a.high), (b.z, b.high), p) <= 0.0);
        a.z <= p.0 && p.0 <= b.z && above && below
    }
}

impl Bar {
    /// The body is ax, ay, az, bx, by, bz, radius, straight and along X.
    pub fn new([ax, ay, az, bx, by, bz, radius]: [f64; 7]) -> Bar {
        assert!(ay == by && az == bz && radius > 0.0, "a straight bar along X");
        let near = if ax * bx <= 0.0 { 0.0 } else { ax.abs().min(bx.abs()) };
        Bar { near, far: ax.abs().max(bx.abs()), side: ay.abs(), z: az, radius }
    }

    fn slice(&self, angle: f64) -> Slice {
        let width = self.radius * angle.cos().max(0.0);
        let low = self.near.hypot((self.side - width).max(0.0));
        Slice { z: self.z + self.radius * angle.sin(), low, high: self.far.hypot(self.side + width) }
    }

    /// How far the curve of a piece, R·sin t and a radius without kink, may lie off its chord: an eighth of the squared angle times
    /// the greatest second derivative. It stays within the chord's upright rectangle, too.
    fn sagitta(&self, angle: f64, (a, b): (Place, Place)) -> f64 {
        let bend = self.radius + self.radius * self.radius / a.1.min(b.1).max(f64::MIN_POSITIVE);
        let off = angle * angle / 8.0 * self.radius.hypot(bend);
        off.min(b.0 - a.0).min((b.1 - a.1).abs())
    }

    /// No point between two slices is nearer to the solid.
    fn least(&self, solid: &Solid, angle: f64, a: Slice, b: Slice) -> f64 {
        if solid.starts_between(a, b) {
            return 0.0;
        }
        let curves = [((a.z, a.low), (b.z, b.low)), ((a.z, a.high), (b.z, b.high))];
        let least = curves.map(|chord| solid.outline_gap(chord) - self.sagitta(angle, chord));
        least[0].min(least[1]).min(solid.slice_gap(a)).min(solid.slice_gap(b))
    }

    /// The pieces between kinks: in the middle, and where the bar's side passes over the spindle.
    fn pieces(&self) -> Vec<(f64, f64)> {
        let quarter = std::f64::consts::FRAC_PI_2;
        let kink = if self.side < self.radius { (self.side / self.radius).acos() } else { 0.0 };
        let mut angles = vec![-quarter, -kink, 0.0, kink, quarter];
        angles.dedup();
        angles.windows(2).map(|pair| (pair[0], pair[1])).filter(|(a, b)| a < b).collect()
    }

    /// The least distance from the solid, at most `BOUND` too high; 0 where they meet.
    pub fn gap(&self, solid: &Solid) -> f64 {
        let (mut waiting, mut best, mut taken) = (self.pieces(), f64::INFINITY, 0);
        while let Some((from, to)) = waiting.pop() {
            taken += 1;
            assert!(taken < PIECES, "too many pieces");
            let (a, b) = (self.slice(from), self.slice(to));
            best = best.min(solid.slice_gap(a)).min(solid.slice_gap(b));
            if best > 0.0 && self.least(solid, to - from, a, b) < best - BOUND / 2.0 {
                let middle = (from + to) * 0.5;
                waiting.extend([(from, middle), (middle, to)]);
            }
        }
        best
    }

    /// How deep the deepest point lies, 0 if none does: at most 1 in 100 or 0.0001 mm too low, whichever is more.
    pub fn deepest(&self, solid: &Solid) -> f64 {
        let quarter = std::f64::consts::FRAC_PI_2;
        let (mut waiting, mut best, mut taken) = (vec![(-quarter, quarter, 0.0, f64::INFINITY)], 0.0f64, 0);
        while let Some((from, to, low, high)) = waiting.pop() {
            taken += 1;
            assert!(taken < PIECES, "too many cells");
            // the widest slice of the cell, so that every radius in it is the bar's
            let wide = self.slice(0f64.clamp(from, to));
            let (low, high) = (wide.low.max(low), wide.high.min(high));
            if low > high {
                continue;
            }
            let depth = solid.depth((wide.z, (low + high) * 0.5));
            best = best.max(depth);
            let (length, height) = (self.slice(to).z - self.slice(from).z, high - low);
            if depth + length.hypot(height * 0.5) <= best + (best * 0.01).max(1e-4) {
                continue;
            }
            let (angle, radius) = ((from + to) * 0.5, (low + high) * 0.5);
            match length > height {
                true => waiting.extend([(from, angle, low, high), (angle, to, low, high)]),
                false => waiting.extend([(from, to, low, radius), (from, to, radius, high)]),
            }
        }
        best
    }
}

#[cfg(test)]
mod tests {
    use super::*;

    /// Section, bar, the true distance to four digits.
    #[test]
    fn worked_by_hand() {
        let s = [0.0, 10.0, 20.0, 10.0, 20.0, 0.0, 0.0, 0.0];
        let ring = [0.0, 5.0, 20.0, 5.0, 20.0, 10.0, 0.0, 10.0];
        let cone = [0.0, 10.0, 40.0, 50.0, 40.0, 0.0, 0.0, 0.0];
        let bar = |x: [f64; 2], y: f64, z: f64, radius: f64| Bar::new([x[0], y, z, x[1], y, z, radius]);
        let near = |section: &[f64], bar: Bar, expected: f64| {
            let gap = bar.gap(&Solid::new(section));
            assert!((gap - expected).abs() < 1e-8, "{gap} for {expected}");
        };
        near(&s, bar([-5.0, 5.0], 16.0, 10.0, 5.0), 1.0);
        near(&s, bar([-5.0, 5.0], 14.0, 24.0, 5.0), 32f64.sqrt() - 5.0);
        near(&s, bar([12.0, 30.0], 0.0, 10.0, 2.0), 2.0);
        near(&s, bar([-30.0, 30.0], 0.0, 23.0, 2.0), 1.0);
        near(&s, bar([6.0, 30.0], 8.0, 23.0, 2.0), 1.0);
        near(&cone, bar([-5.0, 5.0], 40.0, 15.0, 10.0), 15.0 / 2f64.sqrt() - 10.0);
        let flank = [34.0, 21.86, 83.93, 21.86, 83.93, 0.0, 34.0, 0.0];
        near(&flank, bar([-40.0, 40.0], 22.0, 100.0, 16.0), 16.07f64.hypot(0.14) - 16.0);
        let drill = bar([0.0, 25.0], 0.0, 10.0, 2.0);
        near(&ring, drill, 0.0);
        assert!((drill.deepest(&Solid::new(&ring)) - 2.5).abs() < 0.026);
        near(&ring, bar([0.0, 3.0], 0.0, 10.0, 2.0), 5.0 - 13f64.sqrt());
    }
}
