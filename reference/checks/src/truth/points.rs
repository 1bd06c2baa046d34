//! The bounds on points and spheres: what the library says of one, judged by exact distances.

use super::double::{Double, sum};
use super::place::{Measured, Place, SLACK, Vertex, against, edge, edges, inside, sound, surface};
use super::whole::total;
use exact_hypot::hypot;

/// What is claimed, and the bound's exponent: 2^-27 or 2^-26 mm, a 1,024th of it where all numbers are at most 1,024.
pub const BOUNDS: [(&str, i32); 11] = [
    ("point, over any edge, half plane", -27),
    ("point, under the named edge, half plane", -27),
    ("point, over any edge, in space", -26),
    ("point, under the named edge, in space", -26),
    ("sphere, over any edge, half plane", -26),
    ("sphere, under the named edge, half plane", -26),
    ("sphere, over any edge, in space", -26),
    ("sphere, under the named edge, in space", -26),
    ("point, over the solid of a sound section", -26),
    ("sphere judged clear, over any edge", -26),
    ("sphere judged clear, over the solid of a sound section", -26),
];

const SPHERES: usize = 4;
const SOLID: usize = 8;
const CLEAR: usize = 9;
const CLEAR_SOLID: usize = 10;

/// One bound and how much of it was used.
#[derive(Clone, Copy, Debug, PartialEq)]
pub struct Found {
    pub bound: usize,
    /// Whether all numbers are at most 1,024.
    pub metre: bool,
    pub share: f64,
    pub exceeded: bool,
}

/// A query that was answered: a point, which has no radius, or a sphere.
#[derive(Clone, Debug)]
pub struct Told<'a> {
    pub section: &'a [Vertex],
    pub place: Place,
    pub radius: Option<f64>,
    pub distance: f64,
    pub edge: usize,
    /// A clearance at which the sphere was judged clear.
    pub clear: Option<f64>,
}

/// A length as a sum of f64s, exact.
struct Length([f64; 3]);

impl Length {
    fn value(&self) -> Double {
        sum(self.0[0], self.0[1]) + self.0[2].into()
    }

    fn magnitude(self) -> Length {
        if self.value().high < 0.0 { Length(self.0.map(|x| -x)) } else { self }
    }

    /// With one more number.
    fn and(&self, other: f64) -> [f64; 4] {
        [self.0[0], self.0[1], self.0[2], other]
    }
}

/// Distances to the edges from a place: the least of those that are surfaces, and the named one's.
#[derive(Clone, Copy)]
struct Near {
    place: Place,
    least: Double,
    named: Double,
}

fn near(told: &Told, place: Place) -> Near {
    let here: Measured = place.measured();
    let mut least = f64::INFINITY.into();
    for edge in edges(told.section).filter(|&edge| surface(edge)) {
        let distance = here.distance(edge);
        if distance < least {
            least = distance;
        }
    }
    Near { place, least, named: here.distance(edge(told.section, told.edge)) }
}

impl Told<'_> {
    fn metre(&self) -> bool {
        let given = [self.place.x, self.place.y, self.place.z, self.radius.unwrap_or(0.0), self.clear.unwrap_or(0.0)];
        self.section.iter().flat_map(|v| [v.0, v.1]).chain(given).all(|x| x.abs() <= 1024.0)
    }

    fn surfaces(&self) -> impl Iterator<Item = usize> + '_ {
        (0..self.section.len()).filter(|&k| surface(edge(self.section, k)))
    }

    fn found(&self, bound: usize, by: Double, exact: impl FnOnce(f64) -> bool) -> Found {
        let metre = self.metre();
        let most = 2f64.powi(BOUNDS[bound].1 - if metre { 10 } else { 0 });
        let beyond = (by - most.into()).high;
        let exceeded = if beyond.abs() > 2.0 * SLACK { beyond > 0.0 } else { exact(most) };
        Found { bound, metre, share: by.high / most, exceeded }
    }

    /// The length exceeds the distance to some surface edge.
    fn over(&self, bound: usize, length: &Length, near: &Near) -> Found {
        self.found(bound, length.value() - near.least, |most| {
            self.surfaces().any(|k| against(self.section, near.place, k, &length.and(-most)).is_gt())
        })
    }

    /// The length is below the distance to the named edge.
    fn under(&self, bound: usize, length: &Length, near: &Near) -> Found {
        self.found(bound, near.named - length.value(), |most| {
            against(self.section, near.place, self.edge, &length.and(most)).is_lt()
        })
    }

    /// The length exceeds the distance to the solid, which is 0 where the place is inside.
    fn over_solid(&self, bound: usize, length: &Length, near: &Near) -> Found {
        if length.value().high > 0.0 && inside(self.section, self.place) {
            return self.found(bound, length.value(), |most| total(&length.and(-most)).sign().is_gt());
        }
        self.over(bound, length, near)
    }
}

/// All bounds that apply, none where no edge is a surface; those on the solid of any section, if soundness is not asked for.
pub fn judge(told: &Told, ask_sound: bool) -> Vec<Found> {
    if told.surfaces().next().is_none() {
        assert!(told.distance == f64::INFINITY, "{told:?}");
        return Vec::new();
    }
    let named = told.edge < told.section.len() && surface(edge(told.section, told.edge));
    assert!(told.distance.is_finite() && named, "{told:?}");
    let Place { x, y, z } = told.place;
    let space = near(told, told.place);
    let plane = match x == 0.0 || y == 0.0 {
        true => space,
        false => near(told, Place { x: hypot(x, y), y: 0.0, z }),
    };
    let first = if told.radius.is_none() { 0 } else { SPHERES };
    let length = Length([told.distance, told.radius.unwrap_or(0.0), 0.0]).magnitude();
    let mut found = vec![
        told.over(first, &length, &plane),
        told.under(first + 1, &length, &plane),
        told.over(first + 2, &length, &space),
        told.under(first + 3, &length, &space),
    ];
    let solid = !ask_sound || sound(told.section);
    if solid && told.radius.is_none() {
        found.push(told.over_solid(SOLID, &Length([told.distance, 0.0, 0.0]), &space));
    }
    if let (Some(radius), Some(clearance)) = (told.radius, told.clear) {
        let cleared = Length([clearance, radius, -1e-9]);
        found.push(told.over(CLEAR, &cleared, &space));
        if solid {
            found.push(told.over_solid(CLEAR_SOLID, &cleared, &space));
        }
    }
    found
}
