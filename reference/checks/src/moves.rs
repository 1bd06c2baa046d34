//! Request (ix), trying a move: the report expected of single queries and verdicts, one step after the other, and that of the port.

use crate::answer::{self, Answer};
use crate::assembly::wrapped;
use crate::judge;
use crate::query::{Kind, Query, numbers_of};
use jorghipa::{Point, Refusal, Travel, bare, raw};
use table::{Body, FINEST, Settings};

#[derive(Clone, Debug)]
pub struct Move {
    pub section: Vec<f64>,
    pub body: Body,
    pub clearance: f64,
    pub start: [f64; 3],
    pub end: [f64; 3],
    pub steps: u32,
    pub settings: Settings,
}

/// The smallest distance and its first step, the first colliding step, the boxes of all steps.
#[derive(Clone, Copy, Debug)]
pub struct Report {
    pub distance: f64,
    pub step: u32,
    pub colliding: Option<u32>,
    pub boxes: u32,
}

/// Zeros of both signs are one value.
pub fn same(a: &Result<Report, u32>, b: &Result<Report, u32>) -> bool {
    match (a, b) {
        (Ok(a), Ok(b)) => {
            let counts = |report: &Report| (report.step, report.colliding, report.boxes);
            answer::same(a.distance, b.distance) && counts(a) == counts(b)
        }
        (Err(a), Err(b)) => a == b,
        _ => false,
    }
}

/// Where a judge may be wrong; RIGHT is the request's text.
#[derive(Clone, Copy, Debug, Default)]
pub struct Wrong {
    pub divides_first: bool,
    pub omits_last_step: bool,
    pub last_of_equal: bool,
    pub last_collision: bool,
    pub boxes_of_best: bool,
    pub steps_before_all: bool,
    pub offsets_unchecked: bool,
    pub placements_unchecked: bool,
    pub r_bounds_stay: bool,
    pub one_end_only: bool,
    pub tilt_left_out: bool,
    pub finest_always: bool,
}

pub const RIGHT: Wrong = Wrong {
    divides_first: false,
    omits_last_step: false,
    last_of_equal: false,
    last_collision: false,
    boxes_of_best: false,
    steps_before_all: false,
    offsets_unchecked: false,
    placements_unchecked: false,
    r_bounds_stay: false,
    one_end_only: false,
    tilt_left_out: false,
    finest_always: false,
};

/// start + (end - start)·i/n: subtract, multiply, divide, add.
fn offset(start: f64, end: f64, i: u32, n: u32, wrong: Wrong) -> f64 {
    if wrong.divides_first {
        return start + (end - start) * (f64::from(i) / f64::from(n));
    }
    let difference = end - start;
    let product = difference * f64::from(i);
    let quotient = product / f64::from(n);
    start + quotient
}

/// The offset is added to all of the body's positions; a box's z bounds take z and its r bounds x.
fn placed(body: &Body, [x, y, z]: [f64; 3], wrong: Wrong) -> Body {
    match *body {
        Body::Sphere([a, b, c, radius]) => Body::Sphere([a + x, b + y, c + z, radius]),
        Body::Box([z0, z1, r0, r1]) => {
            let r = if wrong.r_bounds_stay { 0.0 } else { x };
            Body::Box([z0 + z, z1 + z, r0 + r, r1 + r])
        }
        Body::Cylinder([ax, ay, az, bx, by, bz, radius]) => {
            let [u, v, w] = if wrong.one_end_only { [0.0; 3] } else { [x, y, z] };
            Body::Cylinder([ax + x, ay + y, az + z, bx + u, by + v, bz + w, radius])
        }
    }
}

/// The body as it stands at step i.
pub fn at_step(given: &Move, i: u32, wrong: Wrong) -> Body {
    let at = |k: usize| offset(given.start[k], given.end[k], i, given.steps, wrong);
    placed(&given.body, [at(0), at(1), at(2)], wrong)
}

/// Distance, boxes, and whether it collides, of one placement, each from a single query.
fn single(given: &Move, body: &Body, wrong: Wrong) -> (f64, u32, bool) {
    let section = std::slice::from_ref(&given.section);
    let ask = |kind, more: &[f64]| judge::expected(&Query::new(kind, section, &[body.numbers(), more].concat()));
    let collision = |kind| match ask(kind, &[given.clearance]) {
        Answer::Verdict(collision) => collision,
        other => panic!("no verdict on a placement that the table accepts: {other:?}, {body:?} of {given:?}"),
    };
    match body {
        Body::Sphere(_) | Body::Box(_) => {
            let (kind, verdict, boxes) = match body {
                Body::Sphere(_) => (Kind::Sphere, Kind::VerdictSphere, 0),
                _ => (Kind::Box, Kind::VerdictBox, 1),
            };
            let Answer::Hit(hit) = ask(kind, &[]) else { panic!("no hit of {body:?}, a placement of {given:?}") };
            (hit.distance, boxes, collision(verdict))
        }
        Body::Cylinder(_) => {
            let settings = if wrong.finest_always { FINEST } else { given.settings };
            let Answer::Walked(hit, [boxes, ..]) = ask(Kind::SetCylinder, &numbers_of(settings)) else {
                panic!("no walk of {body:?}, a placement of {given:?}")
            };
            let verdict = Query::new(Kind::VerdictCylinder, section, &[body.numbers(), &[given.clearance]].concat());
            let judged = if wrong.tilt_left_out { hit.distance } else { judge::judged(&verdict, hit.distance) };
            let collides = judged + 1e-9 < given.clearance;
            let own = settings == FINEST && !wrong.tilt_left_out;
            assert!(!own || collides == collision(Kind::VerdictCylinder), "{body:?}, a placement of {given:?}");
            (hit.distance, boxes, collides)
        }
    }
}

/// By the request's text.
pub fn expected(given: &Move) -> Result<Report, u32> {
    decided(given, RIGHT)
}

pub fn decided(given: &Move, wrong: Wrong) -> Result<Report, u32> {
    let Move { section, body, clearance, start, end, steps, settings } = given;
    let (start, end) = if wrong.offsets_unchecked { ([0.0; 3], [0.0; 3]) } else { (*start, *end) };
    if wrong.steps_before_all && !(1..=4096).contains(steps) {
        return Err(19);
    }
    let offsets: [f64; 6] = [start, end].concat().try_into().expect("two of three");
    table::before_placing(section, body, *clearance, offsets, *steps, *settings)?;
    let mut report = Report { distance: f64::INFINITY, step: 0, colliding: None, boxes: 0 };
    for i in 0..=*steps - u32::from(wrong.omits_last_step) {
        let there = at_step(given, i, wrong);
        match there.alone() {
            Err(_) if wrong.placements_unchecked => continue,
            told => told?,
        }
        let (distance, boxes, collides) = single(given, &there, wrong);
        let nearer = distance < report.distance || (wrong.last_of_equal && distance == report.distance);
        if nearer {
            (report.distance, report.step) = (distance, i);
        }
        if collides && (report.colliding.is_none() || wrong.last_collision) {
            report.colliding = Some(i);
        }
        report.boxes = if wrong.boxes_of_best && nearer { boxes } else { report.boxes };
        report.boxes += if wrong.boxes_of_best { 0 } else { boxes };
    }
    Ok(report)
}

/// The library's answer, through the wrapper.
pub fn port(given: &Move) -> Result<Report, u32> {
    let point = |[x, y, z]: [f64; 3]| Point { x, y, z };
    let travel = Travel { start: point(given.start), end: point(given.end), steps: given.steps };
    let Settings { tolerance, most, intervals } = given.settings;
    let settings = jorghipa::Settings { tolerance, most, intervals };
    bare::try_move(&given.section, wrapped(&given.body), given.clearance, travel, settings)
        .map(|r| Report { distance: r.distance, step: r.step, colliding: r.colliding_step, boxes: r.boxes })
        .map_err(Refusal::number)
}

/// The C function with this kind and these numbers; an error that is 0 tells of a place that a refused call changed, or of a
/// colliding step beside no collision.
pub fn called(given: &Move, kind: u32, numbers: &[f64]) -> Result<Report, u32> {
    let Settings { tolerance, most, intervals } = given.settings;
    let ([sx, sy, sz], [ex, ey, ez]) = (given.start, given.end);
    let (mut distance, mut counts) = (1.25, [76, 77, 78, 79]);
    let [step, collides, colliding, boxes] = &mut counts;
    let (list, count) = (given.section.as_ptr(), given.section.len());
    // SAFETY: the lists are valid for their counts, and the places are distinct.
    let number = unsafe {
        raw::jorghipa_move(
            list,
            count,
            kind,
            numbers.as_ptr(),
            numbers.len(),
            given.clearance,
            sx,
            sy,
            sz,
            ex,
            ey,
            ez,
            given.steps,
            tolerance,
            most,
            intervals,
            &mut distance,
            step,
            collides,
            colliding,
            boxes,
        )
    };
    match (number, counts) {
        (0, [step, 0, 0, boxes]) => Ok(Report { distance, step, colliding: None, boxes }),
        (0, [step, 1, at, boxes]) => Ok(Report { distance, step, colliding: Some(at), boxes }),
        (number, [76, 77, 78, 79]) if distance == 1.25 => Err(number),
        _ => Err(0),
    }
}

/// Its kind in C, and its seven numbers; what it does not use of them is a NaN.
pub fn as_given(body: &Body) -> (u32, [f64; 7]) {
    let kind = match body {
        Body::Sphere(_) => 2,
        Body::Box(_) => 3,
        Body::Cylinder(_) => 4,
    };
    let mut numbers = [f64::NAN; 7];
    numbers[..body.numbers().len()].copy_from_slice(body.numbers());
    (kind, numbers)
}

#[cfg(test)]
mod tests {
    use super::*;
    use crate::generate;
    use crate::random::Random;

    /// Each wrong judge is found out by some of the moves.
    #[test]
    fn wrong_judges_are_found_out() {
        let wrong = [
            ("divides before it multiplies", Wrong { divides_first: true, ..RIGHT }),
            ("step n left out", Wrong { omits_last_step: true, ..RIGHT }),
            ("the last of equal distances", Wrong { last_of_equal: true, ..RIGHT }),
            ("the last colliding step", Wrong { last_collision: true, ..RIGHT }),
            ("the boxes of the best step", Wrong { boxes_of_best: true, ..RIGHT }),
            ("19 before all else", Wrong { steps_before_all: true, ..RIGHT }),
            ("offsets unchecked", Wrong { offsets_unchecked: true, ..RIGHT }),
            ("placements unchecked", Wrong { placements_unchecked: true, ..RIGHT }),
            ("r bounds that stay", Wrong { r_bounds_stay: true, ..RIGHT }),
            ("one end moved", Wrong { one_end_only: true, ..RIGHT }),
            ("the tilt left out", Wrong { tilt_left_out: true, ..RIGHT }),
            ("the finest settings", Wrong { finest_always: true, ..RIGHT }),
        ];
        let mut random = Random::new(1, 88);
        let moves: Vec<Move> = (0..2500).map(|_| generate::short_move(&mut random)).collect();
        let right: Vec<Result<Report, u32>> = moves.iter().map(expected).collect();
        for (name, wrong) in wrong {
            let found = moves.iter().zip(&right).filter(|(m, right)| !same(&decided(m, wrong), right)).count();
            println!("{name}: {found}");
            assert!(found > 0, "{name}");
        }
    }
}
