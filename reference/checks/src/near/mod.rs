//! Queries at the thresholds: the number that is compared lies within four neighbours of the threshold.
//! Faces stand at z = 0 and edges at radius 0 where a difference has to come out to the last digit.

mod body;
mod builder;
mod cylinder;
mod lifted;
mod point;
mod settings;

use crate::answer::Answer;
use crate::generate::{self, Style, list, rotated};
use crate::judge;
use crate::query::{Kind, Query};
use crate::random::{Random, within_four};

/// A query, the number that is compared in it, and what with.
pub struct Near {
    query: Query,
    number: f64,
    threshold: f64,
}

type Make = fn(&mut Random, Kind) -> Near;

pub struct Threshold {
    pub kind: Kind,
    pub name: &'static str,
    make: Make,
}

impl Threshold {
    /// A query at this threshold.
    pub fn query(&self, random: &mut Random) -> Query {
        loop {
            let near = (self.make)(random, self.kind);
            if within_four(near.number, near.threshold) {
                return near.query;
            }
        }
    }
}

/// Every threshold of a kind.
pub fn thresholds(kind: Kind) -> Vec<Threshold> {
    let makes: Vec<(&'static str, Make)> = match kind {
        Kind::Sqrt | Kind::Hypot => return Vec::new(),
        Kind::Point => point::POINT.to_vec(),
        Kind::Sphere => [point::POINT, point::SPHERE].concat(),
        Kind::Box => body::BOX.to_vec(),
        Kind::Convex => body::CONVEX.to_vec(),
        Kind::Section => builder::SECTION.to_vec(),
        Kind::Polygon => builder::POLYGON.to_vec(),
        Kind::Cylinder => cylinder::CYLINDER.to_vec(),
        Kind::VerdictSphere | Kind::VerdictBox | Kind::VerdictConvex => vec![("clearance", clearance)],
        Kind::VerdictCylinder => vec![("clearance", clearance), ("clearance, leaning", leaning)],
        Kind::SetCylinder => settings::SETTINGS.to_vec(),
        Kind::LiftedPoint | Kind::LiftedSphere | Kind::LiftedCylinder => lifted::LIFTED.to_vec(),
    };
    let all: [(&'static str, Make); 2] = [("limit 1,048,576", limit), ("section's radius -1e-9", below_axis)];
    makes.into_iter().chain(all).map(|(name, make)| Threshold { kind, name, make }).collect()
}

/// Any number of a query at the limit.
fn limit(random: &mut Random, kind: Kind) -> Near {
    let mut query = generate::drawn(random, kind);
    let number = random.near(table::LIMIT);
    let places = query.lists.iter().map(Vec::len).sum::<usize>() + query.numbers.len();
    let place = if random.chance(1, 2) { places - 1 - random.below(places.min(7)) } else { random.below(places) };
    let signed = random.sign(number);
    let all = query.lists.iter_mut().flatten().chain(&mut query.numbers);
    all.enumerate().filter(|(i, _)| *i == place).for_each(|(_, x)| *x = signed);
    Near { query, number, threshold: table::LIMIT }
}

/// A radius of the section at -1e-9.
fn below_axis(random: &mut Random, kind: Kind) -> Near {
    let mut query = generate::drawn(random, kind);
    let number = random.near(-1e-9);
    let section = query.lists.last_mut().expect("every kind with thresholds has a section");
    let vertex = random.below(section.len() / 2);
    section[2 * vertex + 1] = number;
    Near { query, number, threshold: -1e-9 }
}

/// A clearance beside the judged distance.
fn clearance(random: &mut Random, kind: Kind) -> Near {
    beside(random, kind, generate::drawn)
}

/// The same of a cylinder that leans, in every direction.
fn leaning(random: &mut Random, kind: Kind) -> Near {
    beside(random, kind, cylinder::leaning)
}

fn beside(random: &mut Random, kind: Kind, draw: fn(&mut Random, Kind) -> Query) -> Near {
    let judged = kind.judged().expect("only a verdict has a clearance");
    loop {
        let mut query = draw(random, kind);
        let last = query.numbers.len() - 1;
        let body = Query::new(judged, &query.lists, &query.numbers[..last]);
        let distance = match judge::expected(&body) {
            Answer::Hit(hit) | Answer::Walked(hit, _) => hit.distance,
            Answer::Refused(_) | Answer::Spoilt(_) | Answer::Split(_) => continue,
            Answer::Root(_) | Answer::Built(..) | Answer::Verdict(_) | Answer::Lifted(..) => continue,
        };
        let threshold = judge::judged(&query, distance) + 1e-9;
        query.numbers[last] = random.near(threshold);
        return Near { number: query.numbers[last], threshold, query };
    }
}

/// A bar with its left face at z = 0: length, then radii from the spindle up to the profile.
/// Radii are at least 1 and lengths at least 2, both in eighths.
fn bar(random: &mut Random) -> Vec<(f64, f64)> {
    let eighths = |random: &mut Random, low| random.whole(low, 400) as f64 / 8.0;
    let (length, radius) = (eighths(random, 16), eighths(random, 8));
    let mut bar = vec![(0.0, 0.0), (0.0, radius)];
    if random.chance(1, 2) {
        bar.push((length * 0.5, radius));
        bar.push((length * 0.5, eighths(random, 8)));
        let last = bar[3].1;
        bar.push((length, last));
    } else {
        bar.push((length, radius));
    }
    bar.push((length, 0.0));
    bar
}

/// The same bar seen from the other side of z = 0.
fn mirrored(section: &mut [(f64, f64)]) {
    section.iter_mut().for_each(|vertex| vertex.0 = -vertex.0);
}

/// The list of a section, from any vertex on and either way round.
fn turned(random: &mut Random, section: Vec<(f64, f64)>) -> Vec<f64> {
    list(&rotated(random, section))
}

/// Sizes of drawings only.
const DRAWING: Style = Style::Drawing;
