//! What the library takes without a word, and a fitter may not have meant.

mod axis;
mod bodies;
mod crossing;
mod diameters;
mod repeats;
mod slits;
mod units;

use crate::Row;
use crate::moving::Tried;
use jorghipa::Vertex;

/// A doubt about what was accepted.
#[derive(Clone, Debug, PartialEq)]
pub struct Warning {
    /// A short name, for other programs.
    pub kind: &'static str,
    /// The records to look at.
    pub records: Vec<u32>,
    pub text: String,
}

/// A radius up to this lies on the axis.
const AXIS: f64 = 1e-9;
/// The builders drop a point so near to the last one.
const SAME: f64 = 1e-12;
/// So many of a kind are named; the rest is counted.
const NAMED: usize = 5;

type Numbered = (u32, Vertex);

/// All doubts: of a section whose vertices come with their records, of the bodies beside it, and of a move.
pub fn warnings(vertices: &[Numbered], rows: &[Row], tried: Option<&Tried>) -> Vec<Warning> {
    let mut found: Vec<Warning> = repeats::repeated(vertices);
    found.extend(axis::open(vertices));
    found.extend(outline(vertices));
    found.extend(axis::joined(vertices));
    found.extend(axis::needles(vertices));
    found.extend(axis::small_radii(vertices));
    found.extend(units::swapped(vertices));
    found.extend(units::inches(vertices));
    found.extend(diameters::diameters(vertices, rows));
    found.extend(bodies::below_axis(rows));
    found.extend(bodies::thin(rows));
    found.extend(tried.into_iter().flat_map(bodies::moving));
    found
}

/// An outline that is listed twice meets itself everywhere, so that its crossings are not named besides; a slit is taken out
/// before they are looked for.
fn outline(vertices: &[Numbered]) -> Vec<Warning> {
    if let Some(warning) = repeats::listed_again(vertices) {
        return vec![warning];
    }
    let (mut found, rest) = slits::slits(vertices);
    found.extend(crossing::crossings(vertices, &rest));
    found
}

/// Each vertex with the next; the last joins the first.
fn edges(vertices: &[Numbered]) -> impl Iterator<Item = (Numbered, Numbered)> + Clone {
    vertices.iter().copied().zip(vertices.iter().copied().cycle().skip(1))
}

fn same(a: Vertex, b: Vertex) -> bool {
    (a.z - b.z).hypot(a.radius - b.radius) <= SAME
}

fn on_axis(vertex: Vertex) -> bool {
    vertex.radius <= AXIS
}

/// Twice the area of a triangle, with the sign of its turn.
fn turn(a: Vertex, b: Vertex, c: Vertex) -> f64 {
    (b.z - a.z) * (c.radius - a.radius) - (b.radius - a.radius) * (c.z - a.z)
}

/// The first few of a kind as they are, the others in one line.
fn capped(mut found: Vec<Warning>, kind: &'static str, others: &str) -> Vec<Warning> {
    if found.len() > NAMED {
        let text = format!("{others}: {} more", found.len() - NAMED);
        found.truncate(NAMED);
        found.push(Warning { kind, records: Vec::new(), text });
    }
    found
}

#[cfg(test)]
mod tests;
