//! Queries from a seed: lathe profiles and other polygons, bodies at, in and beside them, and malformed ones.

mod assemblies;
mod bodies;
mod malformed;
mod moves;
mod sections;

use crate::query::{Kind, Query};
use crate::random::Random;
pub use assemblies::assembly;
pub use moves::{any_move, short_move, tipping};
pub use sections::{list, rotated, section};

/// Sizes of coordinates.
#[derive(Clone, Copy, Debug)]
pub enum Style {
    /// Eighths, as on a drawing.
    Drawing,
    /// Any digits, ordinary sizes.
    Measured,
    /// At the limit and just inside it.
    Limit,
    /// Anything up to the limit.
    Huge,
    /// 1e-13 to 1e-6.
    Tiny,
    /// Multiples of 2^-1074.
    Subnormal,
    /// All of these, and zeros of both signs.
    Mixed,
    /// Whole numbers from -3 to 3: vertices come again, edges have no length, and many edges are equally near.
    Whole,
}

const STYLES: [Style; 15] = [
    Style::Drawing,
    Style::Drawing,
    Style::Drawing,
    Style::Measured,
    Style::Measured,
    Style::Measured,
    Style::Measured,
    Style::Limit,
    Style::Huge,
    Style::Tiny,
    Style::Subnormal,
    Style::Mixed,
    Style::Whole,
    Style::Whole,
    Style::Whole,
];

/// Radii and gaps that the thresholds look at.
pub const SMALL: [f64; 14] =
    [0.0, -0.0, 5e-324, 1e-24, 1e-18, 1e-15, 1e-13, 1e-12, 2e-12, 5e-10, 1e-9, 2e-9, 1e-8, 1e-7];

impl Style {
    pub fn coordinate(self, random: &mut Random) -> f64 {
        match self {
            Style::Drawing => random.whole(-400, 800) as f64 / 8.0,
            Style::Measured => random.between(-50.0, 150.0),
            Style::Limit => {
                let edge = table::LIMIT * random.pick(&[1.0, 1.0, 0.5, 0.25]);
                let inside = edge - random.pick(&[0.0, 0.0, 1e-9, 1e-6, 1.0]);
                random.sign(inside)
            }
            Style::Huge => random.between(-table::LIMIT, table::LIMIT),
            Style::Tiny => {
                let size = random.size(-13, -7);
                random.sign(size)
            }
            Style::Subnormal => {
                let size = f64::from_bits(random.bits() >> random.whole(12, 63));
                random.sign(size)
            }
            Style::Whole => random.whole(-3, 3) as f64,
            Style::Mixed => match random.below(8) {
                0 => 0.0,
                1 => -0.0,
                i => STYLES[2 + i].coordinate(random),
            },
        }
    }

    /// At least 0, mostly.
    pub fn radius(self, random: &mut Random) -> f64 {
        match random.below(24) {
            0 => random.pick(&SMALL),
            1 => {
                let small = random.pick(&SMALL);
                random.near(-small)
            }
            2 => self.coordinate(random),
            _ => self.coordinate(random).abs(),
        }
    }
}

/// A query of this kind, one in eight of them malformed.
pub fn query(random: &mut Random, kind: Kind) -> Query {
    let style = random.pick(&STYLES);
    let mut query = well_formed(random, kind, style);
    if random.chance(1, 8) && !query.lists.is_empty() {
        malformed::spoil(random, &mut query);
    }
    query
}

/// A small well-formed query with the sizes of a drawing.
pub fn drawn(random: &mut Random, kind: Kind) -> Query {
    loop {
        let query = well_formed(random, kind, Style::Drawing);
        if query.lists.iter().all(|list| list.len() <= 24) {
            return query;
        }
    }
}

fn well_formed(random: &mut Random, kind: Kind, style: Style) -> Query {
    match kind {
        Kind::Sqrt => Query::new(kind, &[], &[bodies::any(random).abs()]),
        Kind::Hypot => Query::new(kind, &[], &bodies::pair(random)),
        Kind::Section => {
            let points = sections::points(random, style);
            builder(random, kind, points, 2)
        }
        Kind::Polygon => {
            let points = sections::polygon_points(random, style);
            builder(random, kind, points, 0)
        }
        Kind::Convex | Kind::VerdictConvex => {
            let section = section(random, style, 40);
            let convex = bodies::convex(random, style, &section);
            Query::new(kind, &[list(&convex), list(&section)], clearance(random, kind).as_slice())
        }
        Kind::Point => beside(random, style, kind, 256, bodies::point),
        Kind::Sphere | Kind::VerdictSphere => beside(random, style, kind, 256, bodies::sphere),
        Kind::Box | Kind::VerdictBox => beside(random, style, kind, 256, bodies::bounds),
        Kind::Cylinder => beside(random, style, kind, 12, bodies::cylinder),
        Kind::VerdictCylinder => beside(random, style, kind, 256, bodies::cylinder),
        Kind::SetCylinder => beside(random, style, kind, 12, bodies::set_cylinder),
        Kind::LiftedPoint => beside(random, style, kind, 256, bodies::lifted_point),
        Kind::LiftedSphere => beside(random, style, kind, 256, bodies::lifted_sphere),
        Kind::LiftedCylinder => beside(random, style, kind, 12, bodies::lifted_cylinder),
    }
}

/// A body beside a section of at most `most` vertices.
fn beside(random: &mut Random, style: Style, kind: Kind, most: usize, body: bodies::Make) -> Query {
    let section = section(random, style, most);
    let mut numbers = body(random, style, &section);
    numbers.extend(clearance(random, kind));
    Query::new(kind, &[list(&section)], &numbers)
}

/// A verdict's clearance; nothing for any other kind.
fn clearance(random: &mut Random, kind: Kind) -> Option<f64> {
    let sizes = [0.0, 0.0, 0.5, 1e-9, 2e-9, 1e-8, 2.0, 5.0, 25.0, -1.0, -1e-8, 1_048_576.0];
    kind.judged().map(|_| random.pick(&sizes))
}

/// A builder's space: just enough, or more.
fn builder(random: &mut Random, kind: Kind, points: Vec<f64>, closing: usize) -> Query {
    let space = points.len() + 2 * closing + random.pick(&[0, 0, 1, 2, 9]);
    Query::builder(kind, points, space)
}
