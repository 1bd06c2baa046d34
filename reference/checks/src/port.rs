//! The port's answer, through the crate jorghipa. A refused call is made once more, on places whose content is known, to
//! see that it leaves them as they were.

use crate::answer::{Answer, floats};
use crate::judge;
use crate::lifted::Lifted;
use crate::query::{Kind, Query};
use jorghipa::{
    Aabb, Cylinder, CylinderHit, Hit, JudgedWalk, LiftedCylinderHit, LiftedHit, Point, Refusal, Settings, Sphere, bare,
    raw,
};

pub fn answer(query: &Query) -> Answer {
    let answer = flat(query);
    if let Some(over_records) = records::answer(query)
        && !records::same_bits(&answer, &over_records)
    {
        return Answer::Split(over_records.line());
    }
    answer
}

fn flat(query: &Query) -> Answer {
    match query.kind {
        Kind::Sqrt => Answer::Root(jorghipa::sqrt(query.numbers[0])),
        Kind::Hypot => Answer::Root(jorghipa::hypot(query.numbers[0], query.numbers[1])),
        Kind::Point => point(query),
        Kind::Sphere => sphere(query),
        Kind::Box => aabb(query),
        Kind::Convex => convex(query),
        Kind::Section => {
            built(query, |points, space| Ok(bare::build_section(points, space)?.len()), raw::jorghipa_build_section)
        }
        Kind::Polygon => {
            built(query, |points, space| Ok(bare::build_polygon(points, space)?.len()), raw::jorghipa_build_polygon)
        }
        Kind::Cylinder => cylinder(query, Settings::FINEST),
        Kind::VerdictSphere => verdict_sphere(query),
        Kind::VerdictBox => verdict_box(query),
        Kind::VerdictCylinder => verdict_cylinder(query),
        Kind::VerdictConvex => verdict_convex(query),
        Kind::SetCylinder => {
            let table::Settings { tolerance, most, intervals } = query.settings();
            cylinder(query, Settings { tolerance, most, intervals })
        }
        Kind::LiftedPoint => lifted_point(query),
        Kind::LiftedSphere => lifted_sphere(query),
        Kind::LiftedCylinder => lifted_cylinder(query),
    }
}

/// A list of the query, as C takes it.
fn lent(query: &Query, i: usize) -> (*const f64, usize) {
    (query.lists[i].as_ptr(), query.lists[i].len())
}

/// What the places of a call that is to be refused hold before it.
const FLOATS: [f64; 4] = [1.25, -2.5, 3.75, -4.5];
const COUNTS: [u32; 4] = [76, 77, 78, 79];

/// The answer; of a refused call only if `again`, the C function once more, leaves its places as they were.
fn told(result: Result<Answer, Refusal>, again: impl FnOnce(&mut [f64; 4], &mut [u32; 4]) -> u32) -> Answer {
    result.unwrap_or_else(|refusal| {
        let number = refusal.number();
        let (mut floats, mut counts) = (FLOATS, COUNTS);
        let same = again(&mut floats, &mut counts) == number;
        refused(number, same && floats == FLOATS && counts == COUNTS)
    })
}

fn refused(number: u32, unchanged: bool) -> Answer {
    if unchanged { Answer::Refused(number) } else { Answer::Spoilt(number) }
}

fn with_edge(hit: Hit) -> edges::Hit {
    let Hit { distance, witness_z, witness_radius, edge } = hit;
    edges::Hit { distance, witness: (witness_z, witness_radius), edge }
}

fn hit(hit: Hit) -> Answer {
    Answer::Hit(with_edge(hit))
}

fn walked(walked: CylinderHit) -> Answer {
    Answer::Walked(with_edge(walked.hit), [walked.boxes, walked.waiting, u32::from(walked.cut)])
}

fn with_axes(hit: LiftedHit) -> Lifted {
    let LiftedHit { distance, witness: Point { x, y, z }, edge } = hit;
    Lifted { distance, witness: [x, y, z], edge }
}

fn lifted(hit: LiftedHit) -> Answer {
    Answer::Lifted(with_axes(hit), None)
}

fn lifted_walked(walked: LiftedCylinderHit) -> Answer {
    Answer::Lifted(with_axes(walked.hit), Some([walked.boxes, walked.waiting, u32::from(walked.cut)]))
}

fn place(query: &Query) -> Point {
    let [x, y, z] = query.array();
    Point { x, y, z }
}

fn ball(query: &Query) -> Sphere {
    let [_, _, _, radius] = query.array();
    Sphere { center: place(query), radius }
}

fn bounds(query: &Query) -> Aabb {
    let [z0, z1, r0, r1] = query.array();
    Aabb { z0, z1, r0, r1 }
}

fn bar(query: &Query) -> Cylinder {
    let [ax, ay, az, bx, by, bz, radius] = query.array();
    Cylinder { a: Point { x: ax, y: ay, z: az }, b: Point { x: bx, y: by, z: bz }, radius }
}

fn point(query: &Query) -> Answer {
    let ((list, count), [x, y, z]) = (lent(query, 0), query.array());
    // SAFETY (here and below): the lists are valid for their counts, and the places are distinct.
    told(bare::point(&query.lists[0], place(query)).map(hit), |[d, wz, wr, ..], [edge, ..]| unsafe {
        raw::jorghipa_point(list, count, x, y, z, d, wz, wr, edge)
    })
}

fn sphere(query: &Query) -> Answer {
    let ((list, count), [x, y, z, radius]) = (lent(query, 0), query.array());
    told(bare::sphere(&query.lists[0], ball(query)).map(hit), |[d, wz, wr, ..], [edge, ..]| unsafe {
        raw::jorghipa_sphere(list, count, x, y, z, radius, d, wz, wr, edge)
    })
}

fn aabb(query: &Query) -> Answer {
    let ((list, count), [z0, z1, r0, r1]) = (lent(query, 0), query.array());
    told(bare::aabb(&query.lists[0], bounds(query)).map(hit), |[d, wz, wr, ..], [edge, ..]| unsafe {
        raw::jorghipa_box(list, count, z0, z1, r0, r1, d, wz, wr, edge)
    })
}

fn convex(query: &Query) -> Answer {
    let ((list, count), (section, section_count)) = (lent(query, 0), lent(query, 1));
    told(bare::convex(&query.lists[0], &query.lists[1]).map(hit), |[d, wz, wr, ..], [edge, ..]| unsafe {
        raw::jorghipa_convex(list, count, section, section_count, d, wz, wr, edge)
    })
}

fn cylinder(query: &Query, settings: Settings) -> Answer {
    let ((list, count), [ax, ay, az, bx, by, bz, radius]) = (lent(query, 0), query.array());
    let result = bare::cylinder(&query.lists[0], bar(query), settings).map(walked);
    let Settings { tolerance, most, intervals } = settings;
    told(result, |[d, wz, wr, ..], [edge, boxes, waiting, cut]| unsafe {
        raw::jorghipa_cylinder(
            list, count, ax, ay, az, bx, by, bz, radius, tolerance, most, intervals, d, wz, wr, edge, boxes, waiting,
            cut,
        )
    })
}

fn lifted_point(query: &Query) -> Answer {
    let ((list, count), [x, y, z]) = (lent(query, 0), query.array());
    let result = bare::lifted_point(&query.lists[0], place(query)).map(lifted);
    told(result, |[d, wx, wy, wz], [edge, ..]| unsafe {
        raw::jorghipa_lifted_point(list, count, x, y, z, d, wx, wy, wz, edge)
    })
}

fn lifted_sphere(query: &Query) -> Answer {
    let ((list, count), [x, y, z, radius]) = (lent(query, 0), query.array());
    let result = bare::lifted_sphere(&query.lists[0], ball(query)).map(lifted);
    told(result, |[d, wx, wy, wz], [edge, ..]| unsafe {
        raw::jorghipa_lifted_sphere(list, count, x, y, z, radius, d, wx, wy, wz, edge)
    })
}

fn lifted_cylinder(query: &Query) -> Answer {
    let ((list, count), [ax, ay, az, bx, by, bz, radius]) = (lent(query, 0), query.array());
    let result = bare::lifted_cylinder(&query.lists[0], bar(query)).map(lifted_walked);
    told(result, |[d, wx, wy, wz], [edge, boxes, waiting, cut]| unsafe {
        raw::jorghipa_lifted_cylinder(
            list, count, ax, ay, az, bx, by, bz, radius, d, wx, wy, wz, edge, boxes, waiting, cut,
        )
    })
}

fn verdict_sphere(query: &Query) -> Answer {
    let ((list, count), [x, y, z, radius, clearance]) = (lent(query, 0), query.array());
    let result = bare::verdict_sphere(&query.lists[0], ball(query), clearance);
    told(result.map(Answer::Verdict), |_, [collision, ..]| unsafe {
        raw::jorghipa_verdict_sphere(list, count, x, y, z, radius, clearance, collision)
    })
}

fn verdict_box(query: &Query) -> Answer {
    let ((list, count), [z0, z1, r0, r1, clearance]) = (lent(query, 0), query.array());
    let result = bare::verdict_box(&query.lists[0], bounds(query), clearance);
    told(result.map(Answer::Verdict), |_, [collision, ..]| unsafe {
        raw::jorghipa_verdict_box(list, count, z0, z1, r0, r1, clearance, collision)
    })
}

fn verdict_cylinder(query: &Query) -> Answer {
    let ((list, count), [ax, ay, az, bx, by, bz, radius, clearance]) = (lent(query, 0), query.array());
    let result = bare::verdict_cylinder(&query.lists[0], bar(query), clearance);
    assert_eq!(
        bare::verdict_walk(&query.lists[0], bar(query), clearance),
        counted(query, result),
        "the walk's verdict"
    );
    told(result.map(Answer::Verdict), |_, [collision, ..]| unsafe {
        raw::jorghipa_verdict_cylinder(list, count, ax, ay, az, bx, by, bz, radius, clearance, collision)
    })
}

/// A verdict with the counts of the query at the finest settings.
fn counted(query: &Query, verdict: Result<bool, Refusal>) -> Result<JudgedWalk, Refusal> {
    let collision = verdict?;
    let CylinderHit { boxes, waiting, cut, .. } = bare::cylinder(&query.lists[0], bar(query), Settings::FINEST)?;
    Ok(JudgedWalk { collision, boxes, waiting, cut })
}

fn verdict_convex(query: &Query) -> Answer {
    let ((list, count), (section, section_count), [clearance]) = (lent(query, 0), lent(query, 1), query.array());
    let result = bare::verdict_convex(&query.lists[0], &query.lists[1], clearance);
    told(result.map(Answer::Verdict), |_, [collision, ..]| unsafe {
        raw::jorghipa_verdict_convex(list, count, section, section_count, clearance, collision)
    })
}

/// A builder's C function.
type Build = unsafe extern "C" fn(*const f64, usize, *mut f64, usize, *mut usize) -> u32;

/// A builder is lent its space and the count of kept numbers.
fn built(query: &Query, build: fn(&[f64], &mut [f64]) -> Result<usize, Refusal>, again: Build) -> Answer {
    let (mut space, before) = (judge::space(query), judge::space(query));
    match build(&query.lists[0], &mut space) {
        Ok(kept) => Answer::Built(kept, space),
        Err(refusal) => {
            let (number, (points, count), mut kept) = (refusal.number(), lent(query, 0), 77);
            let same = unsafe { again(points, count, space.as_mut_ptr(), space.len(), &mut kept) } == number;
            refused(number, same && space == before && kept == 77)
        }
    }
}

/// The same queries over vertex records.
mod records {
    use super::*;
    use jorghipa::Vertex;

    /// None for a kind that has no such form, and for an odd count of numbers.
    pub fn answer(query: &Query) -> Option<Answer> {
        let call: fn(&[Vertex], &Query) -> Result<Answer, Refusal> = match query.kind {
            Kind::Point => |section, query| jorghipa::records::point_of(section, place(query)).map(hit),
            Kind::Sphere => |section, query| jorghipa::records::sphere_of(section, ball(query)).map(hit),
            Kind::Box => |section, query| jorghipa::records::box_of(section, bounds(query)).map(hit),
            Kind::Cylinder => |section, query| jorghipa::records::cylinder_of(section, bar(query)).map(walked),
            Kind::Sqrt | Kind::Hypot | Kind::Convex | Kind::Section | Kind::Polygon => return None,
            Kind::VerdictSphere | Kind::VerdictBox | Kind::VerdictCylinder | Kind::VerdictConvex => return None,
            Kind::SetCylinder | Kind::LiftedPoint | Kind::LiftedSphere | Kind::LiftedCylinder => return None,
        };
        let list = query.lists.first().filter(|list| list.len() % 2 == 0)?;
        let section: Vec<Vertex> = list.chunks_exact(2).map(|v| Vertex { z: v[0], radius: v[1] }).collect();
        Some(call(&section, query).unwrap_or_else(|refusal| Answer::Refused(refusal.number())))
    }

    /// Bit by bit, zeros too: both forms run the same code.
    pub fn same_bits(flat: &Answer, records: &Answer) -> bool {
        let bits = |hit: &edges::Hit| (floats(hit).map(f64::to_bits), hit.edge);
        match (flat, records) {
            (Answer::Refused(a) | Answer::Spoilt(a), Answer::Refused(b)) => a == b,
            (Answer::Hit(a), Answer::Hit(b)) => bits(a) == bits(b),
            (Answer::Walked(a, m), Answer::Walked(b, n)) => bits(a) == bits(b) && m == n,
            _ => false,
        }
    }
}
