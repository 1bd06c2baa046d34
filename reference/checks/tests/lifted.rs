//! The lifted witness: readings worked out by hand, special middles and radii asked of the library, and wrong judges, each of
//! which the generated queries must find out.

use checks::answer::Answer;
use checks::generate;
use checks::judge::expected;
use checks::lifted::{Lifted, Rule, lift, middle};
use checks::port;
use checks::query::{Kind, Query};
use checks::random::Random;
use exact_hypot::hypot;

const S: [f64; 8] = [0.0, 10.0, 20.0, 10.0, 20.0, 0.0, 0.0, 0.0];
const KINDS: [Kind; 3] = [Kind::LiftedPoint, Kind::LiftedSphere, Kind::LiftedCylinder];

/// What both the judge and the library have to answer.
fn reads(section: &[f64], kind: Kind, numbers: &[f64], (distance, witness, edge): (f64, [f64; 3], u32)) {
    let query = Query::new(kind, &[section.to_vec()], numbers);
    let counts = (kind == Kind::LiftedCylinder).then_some([1, 0, 0]);
    let hand = Answer::Lifted(Lifted { distance, witness, edge }, counts);
    for answer in [expected(&query), port::answer(&query)] {
        assert!(answer.same(&hand), "{numbers:?}: {answer:?}");
    }
}

#[test]
fn by_hand() {
    reads(&S, Kind::LiftedPoint, &[3.0, 4.0, 30.0], (10.0, [3.0, 4.0, 20.0], 1));
    reads(&S, Kind::LiftedPoint, &[-3.0, 4.0, 30.0], (10.0, [-3.0, 4.0, 20.0], 1));
    reads(&S, Kind::LiftedPoint, &[0.0, -5.0, 20.0], (0.0, [0.0, -5.0, 20.0], 1));
    // On the axis it stands along x.
    reads(&S, Kind::LiftedPoint, &[0.0, 0.0, 10.0], (-10.0, [10.0, 0.0, 10.0], 0));
    reads(&S, Kind::LiftedPoint, &[-0.0, -0.0, 10.0], (-10.0, [10.0, 0.0, 10.0], 0));
    // Hardly off it, it stands along y.
    reads(&S, Kind::LiftedPoint, &[0.0, -5e-324, 10.0], (-10.0, [0.0, -10.0, 10.0], 0));
    reads(&S, Kind::LiftedSphere, &[-6.0, 8.0, 30.0, 4.0], (6.0, [-6.0, 8.0, 20.0], 0));
    reads(&S, Kind::LiftedSphere, &[0.0, 0.0, 30.0, 4.0], (6.0, [0.0, 0.0, 20.0], 1));
    // 3 / 5, where 1 / 5 times 3 is 0.6000000000000001.
    let thin = [0.0, 1.0, 20.0, 1.0, 20.0, 0.0, 0.0, 0.0];
    reads(&thin, Kind::LiftedPoint, &[3.0, 4.0, 10.0], (4.0, [0.6, 0.8, 10.0], 0));
    // +infinity, and the first vertex.
    let axis = [7.0, 0.0, 20.0, 0.0, 0.0, 0.0];
    reads(&axis, Kind::LiftedSphere, &[3.0, 4.0, 30.0, 1.0], (f64::INFINITY, [0.0, 0.0, 7.0], 0));
    // A radius of -1e-9 counts as 0; the point lies 30 before it and 4 above.
    let tip = [0.0, -1e-9, 10.0, 10.0, 20.0, 0.0];
    reads(&tip, Kind::LiftedPoint, &[0.0, -4.0, -30.0], (hypot(30.0, 4.0 + 1e-9), [0.0, 0.0, 0.0], 0));
}

#[test]
fn cylinders_by_hand() {
    let bar = |numbers: [f64; 7], hit| reads(&S, Kind::LiftedCylinder, &numbers, hit);
    bar([15.0, 0.0, 0.0, 15.0, 0.0, 30.0, 2.0], (3.0, [10.0, 0.0, 0.0], 0));
    bar([-9.0, 12.0, 0.0, -9.0, 12.0, 30.0, 2.0], (3.0, [-6.0, 8.0, 0.0], 0));
    bar([0.0, -0.0, 5.0, -0.0, 0.0, 15.0, 2.0], (-9.0, [10.0, 0.0, 10.0], 0));
    // Across: the middle is (40, 30), then (-40, 30) the other way round, then (30, -40) along Y.
    bar([0.0, 30.0, 10.0, 80.0, 30.0, 10.0, 0.0], (20.0, [8.0, 6.0, 10.0], 0));
    bar([0.0, 30.0, 10.0, -80.0, 30.0, 10.0, 0.0], (20.0, [-8.0, 6.0, 10.0], 0));
    bar([30.0, -80.0, 10.0, 30.0, 0.0, 10.0, 0.0], (20.0, [6.0, -8.0, 10.0], 0));
    // Through the axis, the middle on it.
    bar([-80.0, 0.0, 30.0, 80.0, 0.0, 30.0, 0.0], (10.0, [10.0, 0.0, 20.0], 0));
}

/// Middles on the axis, subnormal, with one component 0, of both signs, at the limit; beside sections whose radii are 0, -0,
/// -1e-9, 5e-324, ordinary and the limit.
#[test]
fn special_middles_and_radii() {
    let one_sign = [0.0, 5e-324, 1e-310, f64::MIN_POSITIVE, 1e-160, 1e-9, 3.0, 1_048_576.0];
    let places: Vec<f64> = one_sign.iter().flat_map(|&x| [x, -x]).collect();
    let radii = [0.0, -0.0, -1e-9, 5e-324, 7.5, 1_048_576.0];
    let mut asked = 0;
    for (&x, &y) in places.iter().flat_map(|x| places.iter().map(move |y| (x, y))) {
        for (&tip, &top) in radii.iter().flat_map(|tip| radii.iter().map(move |top| (tip, top))) {
            let section = [0.0, tip, 10.0, top, 20.0, 0.0];
            let bodies: [(Kind, &[f64]); 4] = [
                (Kind::LiftedPoint, &[x, y, -3.0]),
                (Kind::LiftedSphere, &[x, y, 12.0, 1.0]),
                (Kind::LiftedCylinder, &[x, y, -8.0, x, y, -3.0, 0.5]),
                (Kind::LiftedCylinder, &[x, y, 22.0, x, y, 22.0, 0.0]),
            ];
            for (kind, numbers) in bodies {
                let query = Query::new(kind, &[section.to_vec()], numbers);
                let (judge, library) = (expected(&query), port::answer(&query));
                assert!(!judge.refused() && library.same(&judge), "{}: {judge:?}, {library:?}", query.line());
                let Answer::Lifted(hit, _) = library else { panic!("{}", query.line()) };
                sides(&query, hit);
                asked += 1;
            }
        }
    }
    assert_eq!(asked, 36_864);
}

/// For h > 0 neither x nor y takes the opposite sign; all three are finite.
fn sides(query: &Query, hit: Lifted) {
    let middle = middle(query);
    assert!(hit.witness.iter().all(|x| x.is_finite() && x.abs() <= 33_554_432.0), "{}", query.line());
    for (middle, lifted) in middle.into_iter().zip(hit.witness).filter(|_| hypot(middle[0], middle[1]) > 0.0) {
        assert!(!(middle >= 0.0 && lifted < 0.0 || middle <= 0.0 && lifted > 0.0), "{}", query.line());
    }
}

/// The rule over a radius that is 0 where it is below 0, as every wrong rule but one has it.
fn laid_out([x, y]: [f64; 2], radius: f64, of: fn(f64, f64, f64) -> f64) -> Option<[f64; 2]> {
    let h = hypot(x, y);
    (h > 0.0).then(|| [of(radius.max(0.0), x, h), of(radius.max(0.0), y, h)])
}

const WRONG: [(&str, Rule); 5] = [
    ("the division first", |middle, (z, radius)| {
        laid_out(middle, radius, |radius, x, h| radius / h * x).map_or(lift(middle, (z, radius)), |[x, y]| [x, y, z])
    }),
    ("(0, radius) at h = 0", |middle, (z, radius)| {
        let [x, y, z] = lift(middle, (z, radius));
        if hypot(middle[0], middle[1]) == 0.0 { [y, x, z] } else { [x, y, z] }
    }),
    ("a negative radius kept", |middle, (z, radius)| {
        let [x, y, z] = lift(middle, (z, radius.abs()));
        if radius < 0.0 { [-x, -y, z] } else { [x, y, z] }
    }),
    ("x and y exchanged", |[x, y], witness| lift([y, x], witness)),
    ("the Rust's angle", |[x, y], (z, radius)| {
        let (angle, radius) = (y.atan2(x), radius.max(0.0));
        [radius * angle.cos(), radius * angle.sin(), z]
    }),
];

/// The plain witness of a lifted query.
fn plain(query: &Query) -> Option<(f64, f64)> {
    let kind = query.kind.lifted().expect("only lifted kinds are asked");
    match expected(&Query::new(kind, &query.lists, &query.numbers)) {
        Answer::Hit(hit) | Answer::Walked(hit, _) => Some(hit.witness),
        _ => None,
    }
}

/// How many of the accepted queries find each wrong rule out, and a middle that is the cylinder's first end, and the sphere's
/// own radius in place of the witness's.
#[test]
fn generated_queries_find_wrong_judges() {
    for kind in KINDS {
        let mut random = Random::new(10, kind as u64);
        let (mut accepted, mut found, mut one_end, mut own_radius) = (0, [0; WRONG.len()], 0, 0);
        for _ in 0..4000 {
            let query = generate::query(&mut random, kind);
            let Some(witness) = plain(&query) else { continue };
            let right = lift(middle(&query), witness);
            accepted += 1;
            for (found, (_, rule)) in found.iter_mut().zip(WRONG) {
                *found += u32::from(rule(middle(&query), witness) != right);
            }
            one_end += u32::from(lift(query.array(), witness) != right);
            own_radius += u32::from(lift(middle(&query), (witness.0, *query.numbers.last().unwrap())) != right);
        }
        let mut all: Vec<(&str, u32)> = WRONG.iter().zip(found).map(|((name, _), found)| (*name, found)).collect();
        match kind {
            Kind::LiftedSphere => all.push(("the sphere's radius for the witness's", own_radius)),
            Kind::LiftedCylinder => all.push(("the middle of one end", one_end)),
            _ => {}
        }
        for (name, found) in all {
            println!("{kind:?}: {name}: {found} of {accepted}");
            assert!(400 * found >= accepted, "{kind:?}: {name}: only {found} of {accepted}");
        }
    }
}
