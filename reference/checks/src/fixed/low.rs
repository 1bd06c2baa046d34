//! Sections and builders' points with a radius below 0: what 6 meets, what comes before it and behind it, and what is raised.

use crate::query::{Kind, Query, numbers_of};
use table::{FINEST, Settings};

pub fn queries() -> Vec<Query> {
    let mut all = sections();
    verdicts_of(&mut all);
    all.extend(points());
    all
}

/// S with one radius at -1e-9, beside it, and well below, in every vertex; each kind of body beside it, well formed and with
/// each fault of its own, so that every number before 6 and behind it meets one.
fn sections() -> Vec<Query> {
    let low = -1e-9f64;
    let mut all = Vec::new();
    for (i, radius) in [low, low.next_up(), low.next_down(), -5e-10, -1.0, -1_048_577.0].into_iter().enumerate() {
        let mut section = vec![0.0, 10.0, 20.0, 10.0, 20.0, 0.0, 0.0, 0.0];
        section[2 * (i % 4) + 1] = radius;
        let bodies: [(Kind, &[&[f64]]); 3] = [
            (Kind::Point, &[&[3.0, 4.0, 30.0], &[f64::NAN, 0.0, 0.0], &[0.0, 0.0, 1_048_577.0]]),
            (Kind::Sphere, &[&[0.0, 0.0, 30.0, 4.0], &[0.0, 0.0, 30.0, -1.0], &[0.0, 0.0, 2e6, -1.0]]),
            (Kind::Box, &[&[25.0, 30.0, 0.0, 5.0], &[5.0, 4.0, 0.0, 5.0], &[5.0, 4.0, 0.0, f64::NAN]]),
        ];
        for (kind, bodies) in bodies {
            all.extend(bodies.iter().map(|body| Query::new(kind, std::slice::from_ref(&section), body)));
        }
        let bars = [
            [15.0, 0.0, 0.0, 15.0, 0.0, 30.0, 2.0],
            [0.0, 0.0, 0.0, 1.0, 0.0, 1.0, 1.0],
            [15.0, 0.0, 0.0, 15.0, 0.0, 30.0, -1.0],
            [15.0, 0.0, 2e6, 15.0, 0.0, 30.0, -1.0],
        ];
        for bar in bars {
            all.push(Query::new(Kind::Cylinder, std::slice::from_ref(&section), &bar));
            for settings in [FINEST, Settings { most: 0, ..FINEST }] {
                let numbers = [bar.as_slice(), &numbers_of(settings)].concat();
                all.push(Query::new(Kind::SetCylinder, std::slice::from_ref(&section), &numbers));
            }
        }
        // A convex body may lie below the spindle.
        let convex = vec![25.0, 0.0, 30.0, 0.0, 30.0, 5.0];
        let below = vec![25.0, -5.0, 30.0, -5.0, 30.0, -1.0];
        let bad = vec![25.0, 0.0, f64::INFINITY, 0.0, 30.0, 5.0];
        let lists = [
            [convex.clone(), section.clone()],
            [below.clone(), section.clone()],
            [bad, section.clone()],
            [section.clone(), convex],
            [section.clone(), below],
        ];
        all.extend(lists.into_iter().map(|lists| Query::new(Kind::Convex, &lists, &[])));
    }
    all
}

/// The verdicts of the same bodies, at an ordinary clearance, one past the limit, and none.
fn verdicts_of(all: &mut Vec<Query>) {
    for kind in Kind::all() {
        let Some(judged) = kind.judged() else { continue };
        let verdicts = all.iter().filter(|query| query.kind == judged).flat_map(|query| {
            let with = |clearance| Query::new(kind, &query.lists, &[query.numbers.as_slice(), &[clearance]].concat());
            [5.5, 2e6, f64::NAN].map(with)
        });
        let verdicts: Vec<Query> = verdicts.collect();
        all.extend(verdicts);
    }
}

/// Points of both builders with a radius below 0: refused, with too little space or too few kept points besides; raised, before
/// any is dropped, so that the second repeats the first, or the closing vertex does.
fn points() -> Vec<Query> {
    let low = -1e-9f64;
    let mut all = Vec::new();
    for kind in [Kind::Section, Kind::Polygon] {
        for radius in [low, low.next_up(), low.next_down(), -1e-12, -5e-324, -0.0, -1.0, -1_048_576.0, -1_048_577.0] {
            for (points, space) in [
                (vec![0.0, radius, 10.0, 10.0, 20.0, 10.0], 10),
                (vec![0.0, 10.0, 20.0, 10.0, 20.0, radius], 10),
                (vec![0.0, radius, 10.0, 10.0, 20.0, 10.0], 5),
                (vec![0.0, radius, 0.0, radius, 0.0, radius], 10),
                (vec![0.0, radius, 0.0, radius, 0.0, radius], 5),
                (vec![0.0, radius, 0.0, -5e-10, 10.0, 10.0, 20.0, 10.0], 12),
                (vec![0.0, radius, 0.0, 0.0, 10.0, 10.0], 10),
                (vec![0.0, radius, 10.0, 10.0, 20.0, 10.0, 0.0, -5e-10], 12),
                (vec![0.0, -5e-10, 10.0, 10.0, 20.0, 10.0, 0.0, radius], 12),
                (vec![0.0, radius, 10.0, f64::NAN, 20.0, 10.0], 10),
                (vec![0.0, radius, 10.0, 10.0, 20.0], 10),
            ] {
                all.push(Query::builder(kind, points, space));
            }
        }
    }
    all
}
