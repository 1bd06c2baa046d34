//! A place beside a section and its distance to the edges turned about the spindle, in double-double numbers: fast, and known to
//! be within 2^-70 mm. A place has x, y and z; one of the half plane has y = 0.

use super::double::{Double, product, sum};
use super::exact::Exact;
use std::cmp::Ordering;

pub type Vertex = (f64, f64);

/// What a distance in double-double numbers may be off by.
///
/// With all numbers up to 2^20 the differences are below 2^22. The radius errs by 2^-78; the two products of a dot or cross
/// product by 2^-98 of |w| |e|, so that the line's distance, and the foot where it decides, err by less than 2^-75; an end's
/// distance by 2^-76. An edge shorter than 2^-200 counts as its first end.
pub const SLACK: f64 = 1.0 / ((1u64 << 35) as f64 * (1u64 << 35) as f64);

const SHORT: f64 = 1e-60;

#[derive(Clone, Copy, Debug)]
pub struct Place {
    pub x: f64,
    pub y: f64,
    pub z: f64,
}

/// An edge with an end of |radius| > 1e-9.
pub fn surface((a, b): (Vertex, Vertex)) -> bool {
    a.1.abs() > 1e-9 || b.1.abs() > 1e-9
}

/// Edge k runs from vertex k to the next.
pub fn edge(section: &[Vertex], k: usize) -> (Vertex, Vertex) {
    (section[k], section[(k + 1) % section.len()])
}

pub fn edges(section: &[Vertex]) -> impl Iterator<Item = (Vertex, Vertex)> + '_ {
    (0..section.len()).map(|k| edge(section, k))
}

/// A place whose radius is worked out.
#[derive(Clone, Copy)]
pub struct Measured {
    z: f64,
    radius: Double,
    /// Whether the radius is exact.
    sharp: bool,
}

impl Place {
    pub fn measured(self) -> Measured {
        let (x, y) = (self.x.abs(), self.y.abs());
        let (radius, sharp) = match (x == 0.0 || y == 0.0, x.max(y) < SHORT) {
            (true, _) => ((x + y).into(), true),
            (_, true) => (0.0.into(), false),
            _ => ((product(x, x) + product(y, y)).root(), false),
        };
        Measured { z: self.z, radius, sharp }
    }
}

struct Around {
    along: (Double, Double),
    from: (Double, Double),
}

fn length((z, r): (Double, Double)) -> Double {
    (z * z + r * r).root()
}

impl Measured {
    fn to(&self, v: Vertex) -> (Double, Double) {
        (sum(self.z, -v.0), self.radius - v.1.into())
    }

    fn around(&self, (a, b): (Vertex, Vertex)) -> Around {
        Around { along: (sum(b.0, -a.0), sum(b.1, -a.1)), from: self.to(a) }
    }

    /// The distance to an edge, within [`SLACK`].
    pub fn distance(&self, (a, b): (Vertex, Vertex)) -> Double {
        let Around { along: (ez, er), from: (wz, wr) } = self.around((a, b));
        let dot = wz * ez + wr * er;
        if ez.high.abs().max(er.high.abs()) < SHORT || dot <= 0.0.into() {
            return length((wz, wr));
        }
        let square = ez * ez + er * er;
        if dot >= square {
            return length(self.to(b));
        }
        (wr * ez - wz * er).magnitude() / square.root()
    }

    /// Whether this radius is above the place's; none where that is too close to tell.
    fn below(&self, radius: f64) -> Option<bool> {
        let gap = Double::from(radius) - self.radius;
        (self.sharp || gap.magnitude().high > SLACK).then_some(gap > 0.0.into())
    }

    /// Whether the edge crosses the line from here along z strictly beyond; none where it is too close to tell.
    fn crossed(&self, (a, b): (Vertex, Vertex)) -> Option<bool> {
        let (start, end) = (self.below(a.1)?, self.below(b.1)?);
        if start == end {
            return Some(false);
        }
        let Around { along: (ez, er), from: (wz, wr) } = self.around((a, b));
        let area = wr * ez - wz * er;
        let slack = SLACK * (ez.high.abs() + er.high.abs()) + 1e-200;
        match area.high.abs() > slack {
            true => Some((area.high > 0.0) == end),
            false => None,
        }
    }

    /// Whether the even-odd rule has it inside; none where it is too close to tell.
    pub fn inside(&self, section: &[Vertex]) -> Option<bool> {
        edges(section).try_fold(false, |odd, edge| Some(odd != self.crossed(edge)?))
    }
}

/// Every radius is 0 or at least 1/128.
pub fn sound(section: &[Vertex]) -> bool {
    section.iter().all(|v| v.1 == 0.0 || v.1 >= 0.0078125)
}

/// The even-odd rule at a place, exact.
pub fn inside(section: &[Vertex], place: Place) -> bool {
    let fast = place.measured().inside(section);
    fast.unwrap_or_else(|| Exact::new(section, place, &[]).inside())
}

/// A length against the distance to an edge, exact: the length is the sum of these numbers, 0 if that is below 0.
pub fn against(section: &[Vertex], place: Place, k: usize, terms: &[f64]) -> Ordering {
    Exact::new(section, place, terms).against(k, terms)
}

/// Whether double-double numbers and whole numbers agree: distances within [`SLACK`], and the even-odd rule where it is told.
pub fn agree(section: &[Vertex], place: Place) -> bool {
    let here = place.measured();
    let close = |k: usize| {
        let distance = here.distance(edge(section, k));
        let beside = |slack: f64| against(section, place, k, &[distance.high, distance.low, slack]);
        beside(SLACK).is_ge() && beside(-SLACK).is_le()
    };
    let rule = Exact::new(section, place, &[]).inside();
    (0..section.len()).all(close) && here.inside(section).is_none_or(|told| told == rule)
}
