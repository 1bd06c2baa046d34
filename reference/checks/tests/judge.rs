//! The judge itself: document 01's readings, and the probe beside the Rust's public functions.

use checks::answer::Answer;
use checks::fixed;
use checks::generate;
use checks::judge::{expected, vertices};
use checks::query::{Kind, Query};
use checks::random::Random;
use checks::walk;
use edges::Hit;
use revolve_exact::{Sphere, Vec3, probe};
use revolve_traced as traced;
use std::collections::BTreeSet;

const S: [f64; 8] = [0.0, 10.0, 20.0, 10.0, 20.0, 0.0, 0.0, 0.0];

fn hit(distance: f64, witness: (f64, f64), edge: u32) -> Hit {
    Hit { distance, witness, edge }
}

fn reads(kind: Kind, numbers: &[f64], hit: Hit) {
    let answer = expected(&Query::new(kind, &[S.to_vec()], numbers));
    assert!(answer.same(&Answer::Hit(hit)), "{numbers:?}: {}", answer.line());
}

fn walks(numbers: [f64; 7], hit: Hit, counts: [u32; 3]) {
    let answer = expected(&Query::new(Kind::Cylinder, &[S.to_vec()], &numbers));
    assert!(answer.same(&Answer::Walked(hit, counts)), "{numbers:?}: {}", answer.line());
}

#[test]
fn readings() {
    reads(Kind::Point, &[0.0, 0.0, 10.0], hit(-10.0, (10.0, 10.0), 0));
    reads(Kind::Point, &[3.0, 4.0, 30.0], hit(10.0, (20.0, 5.0), 1));
    reads(Kind::Point, &[5.0, 0.0, 20.0], hit(0.0, (20.0, 5.0), 1));
    reads(Kind::Sphere, &[0.0, 0.0, 30.0, 4.0], hit(6.0, (20.0, 0.0), 1));
    reads(Kind::Box, &[25.0, 30.0, 0.0, 5.0], hit(5.0, (20.0, 0.0), 1));
    reads(Kind::Box, &[18.0, 30.0, 0.0, 5.0], hit(-2.0, (20.0, 0.0), 1));
    reads(Kind::Box, &[20.0, 25.0, 0.0, 5.0], hit(0.0, (20.0, 5.0), 1));
    reads(Kind::Box, &[-5.0, 25.0, 5.0, 15.0], hit(-1e-8, (20.0, 10.0), 1));
    reads(Kind::Box, &[5.0, 6.0, -3.0, -2.0], hit(f64::from_bits(0xc01a_d533_6963_eefc), (0.0, 0.0), 3));
    let tiny = vec![25.0, 5.0, 25.0 + 1e-12, 5.0, 25.0, 5.0 + 1e-12];
    let answer = expected(&Query::new(Kind::Convex, &[tiny, S.to_vec()], &[]));
    assert!(answer.same(&Answer::Hit(hit(-25.495097567963924, (0.0, 0.0), 3))), "{}", answer.line());
}

#[test]
fn cylinders() {
    walks([15.0, 0.0, 0.0, 15.0, 0.0, 30.0, 2.0], hit(3.0, (0.0, 10.0), 0), [1, 0, 0]);
    walks([12.0, 0.0, 10.0, 30.0, 0.0, 10.0, 0.0], hit(2.0, (10.0, 10.0), 0), [1, 0, 0]);
    walks([12.0, 0.0, 10.0, 30.0, 0.0, 10.0, 2.0], hit(2.0, (8.0, 10.0), 0), [8192, 29, 1]);
    let answer = |numbers: [f64; 7]| expected(&Query::new(Kind::Cylinder, &[S.to_vec()], &numbers));
    let Answer::Walked(hit, counts) = answer([12.0, 0.0, 10.0, 30.0, 0.0, 10.0, 2f64.powi(-30)]) else { panic!() };
    assert_eq!((hit.distance, hit.edge, counts), (2.0, 0, [1, 1, 0]));
    let Answer::Walked(hit, counts) = answer([4.0, 8.0, 21.5, 24.0, 8.0, 21.5, 4.0]) else { panic!() };
    assert_eq!((hit.distance, hit.edge, counts[2]), (-2.5, 1, 1));
    let Answer::Walked(hit, counts) = answer([0.0, 0.0, 10.0, 30.0, 0.0, 10.0, 1.0]) else { panic!() };
    assert_eq!((hit.distance, counts), (-10.0, [1, 1, 0]));
    let Answer::Walked(_, counts) = answer([0.0, 0.0, -1048576.0, 30.0, 0.0, -1048576.0, 1048576.0]) else { panic!() };
    assert_eq!(counts, [103, 52, 0]);
    assert!(matches!(answer([0.0, 0.0, 0.0, 1.0, 0.0, 1.0, 1.0]), Answer::Refused(11)));
}

/// Request (v)'s rule by hand: bars of 1,024 mm whose ends stand 5/64, 1/8 and 1/8 apart across their axis.
#[test]
fn leaning_bars() {
    let collides = |numbers: [f64; 8]| match expected(&Query::new(Kind::VerdictCylinder, &[S.to_vec()], &numbers)) {
        Answer::Verdict(collision) => collision,
        other => panic!("{}", other.line()),
    };
    let (less, more, side) = (15.0 - 3.0 / 128.0, 15.0 + 3.0 / 128.0, 1.0 / 32.0);
    let along = |clearance| collides([less, -side, 0.0, more, side, 1024.0, 2.0, clearance]);
    assert_eq!([3.0, 3.0 - 5.0 / 128.0].map(along), [true, false]);
    let along_x = |clearance| collides([12.0, -0.0625, 10.0, 1036.0, 0.0625, 10.0, 0.0, clearance]);
    assert_eq!([2.0, 1.9375].map(along_x), [true, false]);
    let along_y = |clearance| collides([-0.0625, 12.0, 10.0, 0.0625, 1036.0, 10.0, 0.0, clearance]);
    assert_eq!([2.0, 1.9375].map(along_y), [true, false]);
}

/// The probe's distances are those of the public functions; the traced copy's are those of the exact one.
#[test]
fn probe_and_public_functions() {
    let mut random = Random::new(7, 0);
    for round in 0..4000 {
        let kind = if round % 10 == 0 { Kind::Cylinder } else { Kind::Sphere };
        let query = generate::drawn(&mut random, kind);
        let solid = probe::solid(&vertices(&query.lists[0]));
        if kind == Kind::Sphere {
            let [x, y, z, radius] = query.array();
            let center = Vec3::new(x, y, z);
            let sphere = Sphere { center, radius };
            assert_eq!(probe::point(&solid, center).map(|hit| hit.0), solid.signed_distance(center));
            assert_eq!(
                probe::sphere(&solid, sphere).map(|hit| hit.0),
                solid.query_sphere(sphere).map(|hit| hit.distance)
            );
        } else {
            let [ax, ay, az, bx, by, bz, radius] = query.array();
            let (a, b) = (Vec3::new(ax, ay, az), Vec3::new(bx, by, bz));
            let exact = solid.query_cylinder(revolve_exact::Cylinder { a, b, radius }).map(|hit| hit.distance);
            let (a, b) = (traced::Vec3::new(ax, ay, az), traced::Vec3::new(bx, by, bz));
            let solid = traced::probe::solid(&vertices(&query.lists[0]));
            let noted = traced::trace::cylinder(&solid, traced::Cylinder { a, b, radius });
            assert_eq!(noted.map(|((distance, _), _)| distance), exact);
        }
    }
}

#[test]
fn the_fixed_list_has_every_kind_and_every_refusal() {
    let queries = fixed::queries(1);
    let outcomes: BTreeSet<(Kind, String)> =
        queries.iter().map(|query| (query.kind, expected(query).outcome())).collect();
    for kind in fixed::kinds() {
        for number in fixed::refusals(kind) {
            assert!(outcomes.contains(&(kind, format!("refused {number}"))), "{kind:?} lacks {number}");
        }
    }
    for query in &queries {
        assert_eq!(Query::parse(&query.line()).unwrap().line(), query.line());
    }
}

/// The second implementation of the walk at the finest settings: distance, witness, counts and mark are the traced Rust's.
#[test]
fn both_walks_at_the_finest() {
    let mut random = Random::new(8, 0);
    let (mut walked, mut cut) = (0, 0);
    for round in 0..4000 {
        let mut query = generate::drawn(&mut random, Kind::Cylinder);
        if round % 4 == 0 {
            // Across the spindle, of hardly any width or an ordinary one, and along Y too.
            let [x, y, z, ..] = query.array::<7>();
            let (length, radius) = (random.pick(&[0.25, 8.0, 40.0]), random.pick(&[2f64.powi(-30), 1e-7, 0.5, 4.0]));
            let ends = if round % 8 == 0 { [x + length, y, z] } else { [x, y + length, z] };
            query.numbers = [[x, y, z], ends].concat();
            query.numbers.push(radius);
        }
        // The judge panics where the two differ.
        let answer = expected(&query);
        assert!(!answer.refused() || matches!(answer, Answer::Refused(11)), "{}", query.line());
        walked += u32::from(answer.walked());
        cut += u32::from(answer.cut());
    }
    assert!(walked > 500 && cut > 100 && walked > cut, "{walked} walked, {cut} cut");
}

#[test]
fn settings() {
    let across = [12.0, 3.0, 22.0, 30.0, 3.0, 22.0, 1.0];
    let counts = |tolerance, most, intervals| {
        let section = vertices(&S);
        let settings = table::Settings { tolerance, most, intervals };
        walk::cylinder(&section, across, settings).map(|walked| (walked.boxes, walked.cut)).unwrap()
    };
    assert_eq!(counts(1e-9, 8192, 16), (8192, true));
    assert_eq!(counts(1e-9, 1, 16), (1, true));
    assert_eq!(counts(1.0, 1, 16), (1, false));
    assert_eq!(counts(1.0, 8192, 1), (1, false));
}
