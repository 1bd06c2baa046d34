//! Request (vii): chuck and work together. The Rust has no such call: a pair is judged by the two single queries, and its
//! refusals by the table.

use crate::answer::Answer;
use crate::generate::{self, list, rotated};
use crate::judge;
use crate::query::{Kind, Query};
use crate::random::Random;
use edges::Hit;
use jorghipa::{Aabb, Body, Cylinder, Point, Sphere, bare, raw};

/// The kinds of bodies that stand beside two sections.
pub const KINDS: [Kind; 4] = [Kind::Sphere, Kind::Box, Kind::Cylinder, Kind::Convex];

/// Two sections; a convex body, if that is the kind; else the body's numbers.
#[derive(Clone, Debug)]
pub struct Pair {
    pub kind: Kind,
    pub chuck: Vec<f64>,
    pub work: Vec<f64>,
    pub convex: Vec<f64>,
    pub numbers: Vec<f64>,
}

/// The number of a refusal, or whether the work won, its hit, and boxes, most waiting, cut.
#[derive(Clone, Debug)]
pub enum Together {
    Refused(u32),
    Won(bool, Hit, [u32; 3]),
    /// Something that was lent had changed.
    Spoilt(String),
}

impl Together {
    /// Zeros of both signs are one value.
    pub fn same(&self, other: &Together) -> bool {
        match (self, other) {
            (Together::Refused(a), Together::Refused(b)) => a == b,
            (Together::Won(v, a, m), Together::Won(w, b, n)) => {
                v == w && Answer::Walked(*a, *m).same(&Answer::Walked(*b, *n))
            }
            _ => false,
        }
    }

    /// What the totals call it.
    pub fn outcome(&self) -> String {
        match self {
            Together::Refused(number) => format!("refused {number}"),
            Together::Won(work, hit, _) => {
                let size = if hit.distance.is_finite() { "" } else { ", at +infinity" };
                format!("{} wins{size}", if *work { "work" } else { "chuck" })
            }
            Together::Spoilt(what) => what.clone(),
        }
    }
}

/// A pair from a query of this kind, of which one in eight is malformed: its section beside the same, the same from another
/// vertex on, the same turned about the body, one on the axis, or another query's.
pub fn draw(random: &mut Random, kind: Kind) -> Pair {
    let query = generate::query(random, kind);
    let section = query.lists.last().expect("a section").clone();
    let convex = if kind == Kind::Convex { query.lists[0].clone() } else { Vec::new() };
    let other = match random.below(8) {
        0 => section.clone(),
        1 if !section.is_empty() && section.len().is_multiple_of(2) => {
            list(&rotated(random, judge::vertices(&section)))
        }
        2 => turned(&section, middle(kind, &query.numbers, &convex)),
        3 => vec![0.0, 0.0, 20.0, 0.0, random.pick(&[0.0, 5.0, -3.0]), random.pick(&[0.0, 1e-9, -0.0])],
        4 => section.iter().enumerate().map(|(i, x)| if i % 2 == 0 { x + 8.0 } else { *x }).collect(),
        _ => generate::query(random, kind).lists.pop().expect("a section"),
    };
    let (chuck, work) = if random.chance(1, 2) { (section, other) } else { (other, section) };
    Pair { kind, chuck, work, convex, numbers: query.numbers }
}

/// About this z: as near on the other side, where the body is as wide there.
fn turned(section: &[f64], middle: f64) -> Vec<f64> {
    section.iter().enumerate().map(|(i, z)| if i % 2 == 0 { 2.0 * middle - z } else { *z }).collect()
}

fn middle(kind: Kind, numbers: &[f64], convex: &[f64]) -> f64 {
    match kind {
        Kind::Sphere => numbers[2],
        Kind::Box => (numbers[0] + numbers[1]) * 0.5,
        Kind::Cylinder => (numbers[2] + numbers[5]) * 0.5,
        _ => convex.first().copied().unwrap_or(0.0),
    }
}

fn array<const N: usize>(pair: &Pair) -> [f64; N] {
    pair.numbers[..N].try_into().expect("a pair has its kind's numbers")
}

fn accepted(pair: &Pair) -> Result<(), u32> {
    let (chuck, work) = (&pair.chuck, &pair.work);
    match pair.kind {
        Kind::Sphere => table::pair_sphere(chuck, work, array(pair)),
        Kind::Box => table::pair_box(chuck, work, array(pair)),
        Kind::Cylinder => table::pair_cylinder(chuck, work, array(pair)),
        _ => table::pair_convex(chuck, work, &pair.convex),
    }
}

/// What one section gives by itself.
fn alone(pair: &Pair, section: &[f64]) -> (Hit, [u32; 3]) {
    let lists =
        if pair.kind == Kind::Convex { vec![pair.convex.clone(), section.to_vec()] } else { vec![section.to_vec()] };
    match judge::expected(&Query::new(pair.kind, &lists, &pair.numbers)) {
        Answer::Hit(hit) => (hit, [u32::from(pair.kind == Kind::Box), 0, 0]),
        Answer::Walked(hit, counts) => (hit, counts),
        other => panic!("the pair is accepted, and one of its sections gives {}: {pair:?}", other.line()),
    }
}

/// The smaller distance; the chuck wins an equal one.
pub fn expected(pair: &Pair) -> Together {
    decided(pair, accepted(pair), |work, chuck| work < chuck)
}

/// By the table's word, and by whether the work's distance wins over the chuck's.
fn decided(pair: &Pair, accepted: Result<(), u32>, work_wins: fn(f64, f64) -> bool) -> Together {
    if let Err(number) = accepted {
        return Together::Refused(number);
    }
    let ((chuck, m), (work, n)) = (alone(pair, &pair.chuck), alone(pair, &pair.work));
    if work_wins(work.distance, chuck.distance) { Together::Won(true, work, n) } else { Together::Won(false, chuck, m) }
}

fn body(pair: &Pair) -> Body {
    match pair.kind {
        Kind::Sphere => {
            let [x, y, z, radius] = array(pair);
            Body::Sphere(Sphere { center: Point { x, y, z }, radius })
        }
        Kind::Box => {
            let [z0, z1, r0, r1] = array(pair);
            Body::Box(Aabb { z0, z1, r0, r1 })
        }
        _ => {
            let [ax, ay, az, bx, by, bz, radius] = array(pair);
            Body::Cylinder(Cylinder { a: Point { x: ax, y: ay, z: az }, b: Point { x: bx, y: by, z: bz }, radius })
        }
    }
}

/// The library's answer. A refused call is made once more, on places whose content is known.
pub fn port(pair: &Pair) -> Together {
    let result = if pair.kind == Kind::Convex {
        bare::pair_convex(&pair.chuck, &pair.work, &pair.convex)
    } else {
        bare::pair(&pair.chuck, &pair.work, body(pair))
    };
    match result {
        Ok((work, hit)) => {
            let at = Hit {
                distance: hit.hit.distance,
                witness: (hit.hit.witness_z, hit.hit.witness_radius),
                edge: hit.hit.edge,
            };
            Together::Won(work, at, [hit.boxes, hit.waiting, u32::from(hit.cut)])
        }
        Err(refusal) => unchanged(pair, refusal.number()),
    }
}

fn unchanged(pair: &Pair, number: u32) -> Together {
    let (mut floats, mut counts) = ([1.25, -2.5, 3.75], [75, 76, 77, 78, 79]);
    let [d, wz, wr] = &mut floats;
    let [winner, edge, boxes, waiting, cut] = &mut counts;
    let ((chuck, m), (work, n)) = ((pair.chuck.as_ptr(), pair.chuck.len()), (pair.work.as_ptr(), pair.work.len()));
    // SAFETY: the lists are valid for their counts, and the places are distinct.
    let again = if pair.kind == Kind::Convex {
        let (convex, count) = (pair.convex.as_ptr(), pair.convex.len());
        unsafe {
            raw::jorghipa_pair_convex(chuck, m, work, n, convex, count, winner, d, wz, wr, edge, boxes, waiting, cut)
        }
    } else {
        let (kind, numbers) = body(pair).given();
        let given = numbers.as_ptr();
        unsafe { raw::jorghipa_pair(chuck, m, work, n, kind, given, 7, winner, d, wz, wr, edge, boxes, waiting, cut) }
    };
    if again == number && floats == [1.25, -2.5, 3.75] && counts == [75, 76, 77, 78, 79] {
        Together::Refused(number)
    } else {
        Together::Spoilt(format!("refused {number}, lent places changed"))
    }
}

/// Counts of numbers other than seven, and kinds other than 2, 3 and 4, beside lists that are refused too.
pub fn foreign() -> Result<(), String> {
    let (s, odd) = ([0.0, 10.0, 20.0, 10.0, 20.0, 0.0], [f64::NAN; 5]);
    for list in [s.as_slice(), &odd] {
        for (kind, count, number) in
            [(2, 0, 1), (2, 6, 1), (4, 8, 1), (9, 6, 1), (0, 7, 14), (1, 7, 14), (5, 7, 14), (u32::MAX, 7, 14)]
        {
            let (numbers, mut floats, mut counts) = ([f64::NAN; 8], [0.5; 3], [9; 5]);
            let [d, wz, wr] = &mut floats;
            let [winner, edge, boxes, waiting, cut] = &mut counts;
            let (at, n, given) = (list.as_ptr(), list.len(), numbers.as_ptr());
            // SAFETY: the lists are valid for their counts, and the places are distinct.
            let told = unsafe {
                raw::jorghipa_pair(at, n, at, n, kind, given, count, winner, d, wz, wr, edge, boxes, waiting, cut)
            };
            if told != number || floats != [0.5; 3] || counts != [9; 5] {
                return Err(format!("kind {kind}, {count} numbers: {told}, expected {number}"));
            }
        }
    }
    Ok(())
}

#[cfg(test)]
mod tests {
    use super::*;

    fn with(pair: &Pair, chuck: &[f64], work: &[f64]) -> Result<(), u32> {
        accepted(&Pair { chuck: chuck.to_vec(), work: work.to_vec(), ..pair.clone() })
    }

    const S: [f64; 8] = [0.0, 10.0, 20.0, 10.0, 20.0, 0.0, 0.0, 0.0];

    fn tie_to_work(pair: &Pair) -> Together {
        decided(pair, accepted(pair), |work, chuck| work <= chuck)
    }

    fn losers_hit(pair: &Pair) -> Together {
        match expected(pair) {
            Together::Won(work, ..) => {
                let (hit, counts) = alone(pair, if work { &pair.chuck } else { &pair.work });
                Together::Won(work, hit, counts)
            }
            refused => refused,
        }
    }

    fn larger(pair: &Pair) -> Together {
        decided(pair, accepted(pair), |work, chuck| work > chuck)
    }

    fn body_first(pair: &Pair) -> Together {
        decided(pair, with(pair, &S, &S).and(accepted(pair)), |work, chuck| work < chuck)
    }

    fn work_first(pair: &Pair) -> Together {
        decided(pair, with(pair, &pair.work, &pair.chuck), |work, chuck| work < chuck)
    }

    fn lowest(pair: &Pair) -> Together {
        let numbers = [with(pair, &pair.chuck, &S), with(pair, &S, &pair.work)];
        let lowest = numbers.into_iter().filter_map(Result::err).min();
        decided(pair, lowest.map_or(Ok(()), Err), |work, chuck| work < chuck)
    }

    type Judge = fn(&Pair) -> Together;

    /// Each wrong judge is found out by some of 4,000 pairs.
    #[test]
    fn wrong_judges_are_found_out() {
        let wrong: [(&str, Judge); 6] = [
            ("the work wins a tie", tie_to_work),
            ("the loser's hit", losers_hit),
            ("the larger distance", larger),
            ("the body first", body_first),
            ("the work's list first", work_first),
            ("the lowest over both lists", lowest),
        ];
        let mut random = Random::new(1, 77);
        let pairs: Vec<Pair> =
            (0..4000).map(|i| draw(&mut random, [Kind::Sphere, Kind::Box, Kind::Convex][i % 3])).collect();
        for (name, judge) in wrong {
            let found = pairs.iter().filter(|pair| !judge(pair).same(&expected(pair))).count();
            println!("{name}: {found}");
            assert!(found > 0, "{name}");
        }
    }
}
