//! The expected answer: numbers from the table, all else from the published Rust with the exact hypot. The edge of a hit comes
//! from document 01's steps, whose distance and witness have to be the Rust's; a cylinder from the second implementation of the
//! walk, which at the finest settings has to agree with the Rust. A cylinder's verdict is the Rust's distance with
//! request (v)'s rule beside it, a lifted witness the Rust's pair laid out by request (x)'s.

use crate::answer::Answer;
use crate::lifted;
use crate::query::{FILL, Kind, Query};
use crate::walk::{self, Walked};
use edges::Hit;
use revolve_exact::probe;
use revolve_exact::{RevolvedSolid, Sphere, Vec3, aabb_polygon_distance};
use revolve_traced as traced;

/// A list as the Rust takes it.
pub fn vertices(list: &[f64]) -> Vec<(f64, f64)> {
    list.chunks_exact(2).map(|pair| (pair[0], pair[1])).collect()
}

/// Panics where table and Rust contradict each other: then the checker is at fault, not the port.
pub fn expected(query: &Query) -> Answer {
    if let Err(number) = accepted(query) {
        assert!(rust_refuses(query, number), "the Rust accepts what the table refuses: {}", query.line());
        return Answer::Refused(number);
    }
    match answer(query) {
        Some(answer) => answer,
        None => panic!("the table accepts what the Rust refuses: {}", query.line()),
    }
}

/// Whether the table accepts a query, or the number under which it is refused.
fn accepted(query: &Query) -> Result<(), u32> {
    let list = |i: usize| query.lists[i].as_slice();
    match query.kind {
        Kind::Sqrt | Kind::Hypot => Ok(()),
        Kind::Point | Kind::LiftedPoint => table::point(list(0), query.array(), &[]),
        Kind::Sphere | Kind::LiftedSphere => table::sphere(list(0), query.array(), &[]),
        Kind::Box => table::aabb(list(0), query.array(), &[]),
        Kind::Convex => table::convex(list(0), list(1), &[]),
        Kind::Section => table::build_section(list(0), &space(query)).map(|_| ()),
        Kind::Polygon => table::build_polygon(list(0), &space(query)).map(|_| ()),
        Kind::Cylinder | Kind::LiftedCylinder => table::cylinder(list(0), query.array(), table::FINEST, &[]),
        Kind::VerdictSphere => table::sphere(list(0), query.array(), &query.numbers[4..]),
        Kind::VerdictBox => table::aabb(list(0), query.array(), &query.numbers[4..]),
        Kind::VerdictCylinder => table::cylinder(list(0), query.array(), table::FINEST, &query.numbers[7..]),
        Kind::VerdictConvex => table::convex(list(0), list(1), &query.numbers),
        Kind::SetCylinder => table::cylinder(list(0), query.array(), query.settings(), &[]),
    }
}

fn answer(query: &Query) -> Option<Answer> {
    match query.kind {
        Kind::Sqrt => Some(Answer::Root(exact_hypot::sqrt(query.numbers[0]))),
        Kind::Hypot => Some(Answer::Root(exact_hypot::hypot(query.numbers[0], query.numbers[1]))),
        Kind::Point => edges::point(&section(query), query.array()).map(Answer::Hit),
        Kind::Sphere => sphere(query).map(Answer::Hit),
        Kind::Box => aabb(query).map(Answer::Hit),
        Kind::Convex => convex(query).map(Answer::Hit),
        Kind::Section => built(query, table::build_section, RevolvedSolid::try_from_section),
        Kind::Polygon => built(query, table::build_polygon, try_from_raised),
        Kind::Cylinder => cylinder(query, table::FINEST),
        Kind::VerdictSphere => verdict(query, sphere(query)?.distance),
        Kind::VerdictBox => verdict(query, aabb(query)?.distance),
        Kind::VerdictCylinder => verdict(query, rust_cylinder(query)?.0.0),
        Kind::VerdictConvex => verdict(query, convex(query)?.distance),
        Kind::SetCylinder => cylinder(query, query.settings()),
        Kind::LiftedPoint | Kind::LiftedSphere | Kind::LiftedCylinder => lifted(query),
    }
}

/// The plain answer with its witness lifted.
fn lifted(query: &Query) -> Option<Answer> {
    let plain = Query::new(query.kind.lifted()?, &query.lists, &query.numbers);
    Some(match answer(&plain)? {
        Answer::Hit(hit) => Answer::Lifted(lifted::of(query, hit), None),
        Answer::Walked(hit, counts) => Answer::Lifted(lifted::of(query, hit), Some(counts)),
        other => panic!("{} to {}", other.line(), query.line()),
    })
}

fn section(query: &Query) -> Vec<(f64, f64)> {
    vertices(query.lists.last().expect("every query beside a section has one"))
}

fn sphere(query: &Query) -> Option<Hit> {
    edges::sphere(&section(query), query.array())
}

fn aabb(query: &Query) -> Option<Hit> {
    edges::aabb(&section(query), query.array())
}

fn convex(query: &Query) -> Option<Hit> {
    edges::convex(&vertices(&query.lists[0]), &section(query))
}

fn cylinder(query: &Query, settings: table::Settings) -> Option<Answer> {
    let walked = walk::cylinder(&section(query), query.array(), settings)?;
    if settings == table::FINEST {
        let (hit, trace) = rust_cylinder(query)?;
        assert!(as_traced(&walked, hit, trace), "the two walks differ: {}", query.line());
    }
    Some(Answer::Walked(walked.hit, [walked.boxes, walked.waiting, u32::from(walked.cut)]))
}

/// Zeros of both signs are one value.
fn as_traced(walked: &Walked, (distance, witness): probe::Hit, trace: traced::trace::Trace) -> bool {
    let counts = traced::trace::Trace { boxes: walked.boxes, waiting: walked.waiting, cut: walked.cut };
    walked.hit.distance == distance && walked.hit.witness == witness && counts == trace
}

fn rust_sphere(query: &Query) -> Option<probe::Hit> {
    let [x, y, z, radius] = query.array();
    probe::sphere(&probe::solid(&section(query)), Sphere { center: Vec3::new(x, y, z), radius })
}

fn rust_aabb(query: &Query) -> Option<probe::Hit> {
    let [z0, z1, r0, r1] = query.array();
    aabb_polygon_distance(z0, z1, r0, r1, &section(query))
}

/// Distance and witness of the Rust, and what the traced copy notes of the walk.
pub fn rust_cylinder(query: &Query) -> Option<(probe::Hit, traced::trace::Trace)> {
    let body @ [ax, ay, az, bx, by, bz, radius] = query.array();
    let solid = traced::probe::solid(&vertices(&query.lists[0]));
    let rust = |a: [f64; 3], b: [f64; 3]| {
        let [a, b] = [a, b].map(|[x, y, z]| traced::Vec3::new(x, y, z));
        traced::trace::cylinder(&solid, traced::Cylinder { a, b, radius })
    };
    let given = rust([ax, ay, az], [bx, by, bz]);
    if table::axis(body) != Some(table::Axis::AlongY) {
        return given;
    }
    // Request (iv): the Rust refuses a cylinder along Y, and is asked on exchanged coordinates.
    assert!(given.is_none(), "the Rust accepts a cylinder along Y: {}", query.line());
    rust([ay, ax, az], [by, bx, bz])
}

fn verdict(query: &Query, distance: f64) -> Option<Answer> {
    let clearance = *query.numbers.last()?;
    Some(Answer::Verdict(judged(query, distance) + revolve_exact::TOUCH_SLACK < clearance))
}

/// The distance that a verdict judges. Request (v): a cylinder's less half of one length, by its direction.
pub fn judged(query: &Query, distance: f64) -> f64 {
    if query.kind != Kind::VerdictCylinder {
        return distance;
    }
    let body @ [ax, ay, az, bx, by, bz, _] = query.array();
    let length = match table::axis(body) {
        Some(table::Axis::Axial) => exact_hypot::hypot(ax - bx, ay - by),
        Some(table::Axis::AlongX) => exact_hypot::hypot(ay - by, az - bz),
        Some(table::Axis::AlongY) => exact_hypot::hypot(ax - bx, az - bz),
        None => panic!("the table accepts a cylinder of no direction: {}", query.line()),
    };
    distance - length * 0.5
}

/// A builder's lent space before the call.
pub fn space(query: &Query) -> Vec<f64> {
    vec![f64::from_bits(FILL); query.space]
}

/// The builders of the table and of the Rust.
type BuildByTable = fn(&[f64], &[f64]) -> Result<table::Built, u32>;
type BuildByRust = fn(&[(f64, f64)]) -> Option<RevolvedSolid>;

/// Request (xi): radii below 0 are raised first, and the Rust does not do that for a polygon; without one it is asked as given.
fn try_from_raised(points: &[(f64, f64)]) -> Option<RevolvedSolid> {
    let raised: Vec<_> = points.iter().map(|&(z, radius)| (z, if radius < 0.0 { 0.0 } else { radius })).collect();
    RevolvedSolid::try_from_polygon(&raised)
}

fn built_by_rust(query: &Query, rust: BuildByRust) -> Option<RevolvedSolid> {
    rust(&vertices(&query.lists[0]))
}

/// The table's result, provided that the Rust keeps the same vertices.
fn built(query: &Query, table: BuildByTable, rust: BuildByRust) -> Option<Answer> {
    let built = table(&query.lists[0], &space(query)).ok()?;
    let solid = built_by_rust(query, rust)?;
    let kept = vertices(&built.space[..built.kept]);
    assert_eq!(kept, probe::vertices(&solid), "table and Rust keep other points: {}", query.line());
    Some(Answer::Built(built.kept, built.space))
}

/// Whether the Rust refuses too, where it has the same refusal.
fn rust_refuses(query: &Query, number: u32) -> bool {
    match query.kind {
        Kind::Section => ![6, 8].contains(&number) || built_by_rust(query, RevolvedSolid::try_from_section).is_none(),
        Kind::Polygon => number != 8 || built_by_rust(query, try_from_raised).is_none(),
        Kind::Sphere | Kind::LiftedSphere => number != 9 || rust_sphere(query).is_none(),
        Kind::Box => number != 10 || rust_aabb(query).is_none(),
        Kind::Cylinder | Kind::SetCylinder | Kind::LiftedCylinder => number != 11 || rust_cylinder(query).is_none(),
        Kind::Sqrt | Kind::Hypot | Kind::Point | Kind::LiftedPoint | Kind::Convex => true,
        Kind::VerdictSphere | Kind::VerdictBox | Kind::VerdictCylinder | Kind::VerdictConvex => true,
    }
}
