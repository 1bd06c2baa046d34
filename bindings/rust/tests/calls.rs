//! Readings of document 01 on its section S, by the calls on bare numbers.

mod common;

use common::*;
use jorghipa::bare::*;
use jorghipa::{
    Body, CylinderHit, Hit, LiftedCylinderHit, LiftedHit, Refusal, Report, Settings, Sphere, Travel, VERSION, hypot,
    sqrt, version,
};

fn hit(distance: f64, witness_z: f64, witness_radius: f64, edge: u32) -> Hit {
    Hit { distance, witness_z, witness_radius, edge }
}

#[test]
fn readings() {
    assert_eq!(point(&S, at(0.0, 0.0, 10.0)), Ok(hit(-10.0, 10.0, 10.0, 0)));
    assert_eq!(point(&S, at(3.0, 4.0, 30.0)), Ok(hit(10.0, 20.0, 5.0, 1)));
    assert_eq!(point(&[0.0, 0.0, 20.0, 0.0, 0.0, 0.0], at(1.0, 2.0, 3.0)), Ok(hit(f64::INFINITY, 0.0, 0.0, 0)));
    assert_eq!(sphere(&S, Sphere { center: at(0.0, 0.0, 30.0), radius: 4.0 }), Ok(hit(6.0, 20.0, 0.0, 1)));
    assert_eq!(aabb(&S, bounds(18.0, 30.0, 0.0, 5.0)), Ok(hit(-2.0, 20.0, 0.0, 1)));
    assert_eq!(aabb(&S, bounds(-5.0, 25.0, 5.0, 15.0)), Ok(hit(-1e-8, 20.0, 10.0, 1)));
    let corners = [25.0, 0.0, 30.0, 0.0, 30.0, 5.0, 25.0, 5.0];
    assert_eq!(convex(&corners, &S), Ok(hit(5.0, 20.0, 0.0, 1)));
    // Deepest inside this one lies the vertex (20, 10), where edge 1 starts.
    let around = [-5.0, -5.0, 26.0, -5.0, 26.0, 16.0, -5.0, 16.0];
    assert_eq!(convex(&around, &S), Ok(hit(-6.0, 20.0, 10.0, 1)));
    let along = bar(at(15.0, 0.0, 0.0), at(15.0, 0.0, 30.0), 2.0);
    assert_eq!(
        cylinder(&S, along, Settings::FINEST),
        Ok(CylinderHit { hit: hit(3.0, 0.0, 10.0, 0), boxes: 1, waiting: 0, cut: false })
    );
    let across = bar(at(12.0, 0.0, 10.0), at(30.0, 0.0, 10.0), 2.0);
    assert_eq!(
        cylinder(&S, across, Settings::FINEST).map(|walk| (walk.hit.edge, walk.boxes, walk.cut)),
        Ok((0, 8192, true))
    );
    assert_eq!((sqrt(2.25), hypot(3.0, 4.0)), (1.5, 5.0));
}

/// By the rule, from the readings above; and two whose middle tells x from y, and a mean from one end.
#[test]
fn lifted() {
    let hit = |distance, witness, edge| LiftedHit { distance, witness, edge };
    assert_eq!(lifted_point(&S, at(3.0, 4.0, 30.0)), Ok(hit(10.0, at(3.0, 4.0, 20.0), 1)));
    assert_eq!(lifted_point(&S, at(-0.0, 0.0, 10.0)), Ok(hit(-10.0, at(10.0, 0.0, 10.0), 0)));
    let ball = Sphere { center: at(-6.0, 8.0, 30.0), radius: 4.0 };
    assert_eq!(lifted_sphere(&S, ball), Ok(hit(6.0, at(-6.0, 8.0, 20.0), 0)));
    // Multiplied first: 1 / 5 times 3 were 0.6000000000000001.
    let thin = [0.0, 1.0, 20.0, 1.0, 20.0, 0.0, 0.0, 0.0];
    assert_eq!(lifted_point(&thin, at(3.0, 4.0, 10.0)), Ok(hit(4.0, at(0.6, 0.8, 10.0), 0)));
    // A radius below 0 counts as 0.
    let tip = [0.0, -1e-9, 10.0, 10.0, 20.0, 0.0];
    assert_eq!(lifted_point(&tip, at(-3.0, 4.0, -30.0)).map(|hit| hit.witness), Ok(at(0.0, 0.0, 0.0)));
    let line = |a, b| lifted_cylinder(&S, bar(a, b, 0.0));
    let one_box = |hit| LiftedCylinderHit { hit, boxes: 1, waiting: 0, cut: false };
    let across = line(at(0.0, 30.0, 10.0), at(80.0, 30.0, 10.0));
    assert_eq!(across, Ok(one_box(hit(20.0, at(8.0, 6.0, 10.0), 0))));
    let along_y = line(at(-30.0, 80.0, 10.0), at(-30.0, 0.0, 10.0));
    assert_eq!(along_y, Ok(one_box(hit(20.0, at(-6.0, 8.0, 10.0), 0))));
    let walked = lifted_cylinder(&S, bar(at(12.0, 0.0, 10.0), at(30.0, 0.0, 10.0), 2.0)).unwrap();
    assert_eq!(walked.hit, hit(2.0, at(10.0, 0.0, 8.0), 0));
    assert_eq!((walked.boxes, walked.waiting, walked.cut), (8192, 29, true));
    let low = with_radius(-1.0);
    assert_eq!(lifted_point(&S[..7], at(0.0, 0.0, 0.0)), Err(Refusal::from(1)));
    assert_eq!(lifted_point(&low, at(0.0, f64::NAN, 0.0)), Err(Refusal::from(4)));
    assert_eq!(lifted_sphere(&low, Sphere { radius: -1.0, ..ball }), Err(Refusal::from(6)));
    assert_eq!(lifted_sphere(&S, Sphere { radius: -1.0, ..ball }), Err(Refusal::from(9)));
    let skew = |radius| lifted_cylinder(&S, bar(at(0.0, 0.0, 0.0), at(1.0, 0.0, 1.0), radius));
    assert_eq!((skew(-1.0), skew(1.0)), (Err(Refusal::from(9)), Err(Refusal::from(11))));
}

#[test]
fn settings() {
    let (along, across) =
        (bar(at(15.0, 0.0, 0.0), at(15.0, 0.0, 30.0), 2.0), bar(at(0.0, 0.0, 20.0), at(30.0, 0.0, 20.0), 1.0));
    let with = |tolerance, most, intervals| Settings { tolerance, most, intervals };
    assert_eq!(cylinder(&S, across, Settings::FINEST).map(|walk| (walk.boxes, walk.cut)), Ok((53, false)));
    assert_eq!(cylinder(&S, across, with(0.01, 64, 4)).map(|walk| (walk.boxes, walk.cut)), Ok((7, false)));
    assert_eq!(cylinder(&S, across, with(0.01, 1, 4)).map(|walk| (walk.boxes, walk.cut)), Ok((1, true)));
    for taken in [with(1e-9, 1, 1), with(1.0, 8192, 64)] {
        assert!(cylinder(&S, along, taken).is_ok() && cylinder(&S, across, taken).is_ok());
    }
    let tolerances = [f64::NAN, f64::INFINITY, 0.0, 1e-9f64.next_down(), 1f64.next_up()].map(|x| with(x, 64, 4));
    let counts = [(0, 4), (8193, 4), (64, 0), (64, 65)].map(|(most, intervals)| with(0.01, most, intervals));
    for refused in tolerances.into_iter().chain(counts) {
        assert_eq!(cylinder(&S, along, refused), Err(Refusal::from(18)));
        assert_eq!(cylinder(&S, across, refused), Err(Refusal::from(18)));
        // Between 5 and 9.
        assert_eq!(cylinder(&S, bar(at(0.0, 0.0, 0.0), at(1.0, 0.0, 1.0), -1.0), refused), Err(Refusal::from(18)));
        assert_eq!(cylinder(&S, bar(at(2e6, 0.0, 0.0), at(0.0, 0.0, 1.0), 1.0), refused), Err(Refusal::from(5)));
    }
}

#[test]
fn pairs() {
    let away = [-100.0, 10.0, -80.0, 10.0, -80.0, 0.0, -100.0, 0.0];
    let ball = Body::Sphere(Sphere { center: at(0.0, 0.0, 30.0), radius: 4.0 });
    let near = |work, boxes| (work, CylinderHit { hit: hit(6.0, 20.0, 0.0, 1), boxes, waiting: 0, cut: false });
    assert_eq!(pair(&S, &away, ball), Ok(near(false, 0)));
    assert_eq!(pair(&away, &S, ball), Ok(near(true, 0)));
    // An equal distance: the chuck wins.
    assert_eq!(pair(&S, &S, ball), Ok(near(false, 0)));
    assert_eq!(pair(&away, &S, Body::Box(bounds(26.0, 30.0, 0.0, 5.0))), Ok(near(true, 1)));
    let corners = [26.0, 0.0, 30.0, 0.0, 30.0, 5.0, 26.0, 5.0];
    assert_eq!(pair_convex(&away, &S, &corners), Ok(near(true, 0)));
    // One section on the axis, then both: +infinity, and the chuck's first vertex.
    let (axis, other) = ([0.0, 0.0, 20.0, 0.0, 0.0, 0.0], [5.0, 0.0, 20.0, 0.0, 0.0, 0.0]);
    assert_eq!(pair(&axis, &S, ball).map(|(work, _)| work), Ok(true));
    assert_eq!(
        pair(&other, &axis, ball).map(|(work, walk)| (work, walk.hit)),
        Ok((false, hit(f64::INFINITY, 5.0, 0.0, 0)))
    );
    // The chuck's 6, the work's 1, the body's 9.
    let low = with_radius(-1.0);
    let bad = Body::Sphere(Sphere { center: at(0.0, 0.0, 30.0), radius: -1.0 });
    assert_eq!(pair(&low, &S[..7], bad), Err(Refusal::from(6)));
    assert_eq!(pair(&S, &S[..7], bad), Err(Refusal::from(1)));
    assert_eq!(pair(&S, &low, bad), Err(Refusal::from(6)));
    assert_eq!(pair(&S, &S, bad), Err(Refusal::from(9)));
    assert_eq!(pair_convex(&S, &low, &S[..7]), Err(Refusal::from(6)));
    assert_eq!(pair_convex(&S, &S, &S[..7]), Err(Refusal::from(1)));
    assert!(pair_convex(&S, &S, &low).is_ok());
}

#[test]
fn moves() {
    let ball = |x, z, radius| Body::Sphere(Sphere { center: at(x, 0.0, z), radius });
    let travel = |start, end, steps| Travel { start, end, steps };
    let (origin, finest) = (at(0.0, 0.0, 0.0), Settings::FINEST);
    let report = |distance, step, colliding_step, boxes| Ok(Report { distance, step, colliding_step, boxes });
    // Towards the end of the bar: smallest at the last step, below the clearance one step before.
    let down = travel(at(0.0, 0.0, 10.0), at(0.0, 0.0, -10.0), 4);
    assert_eq!(try_move(&S, ball(0.0, 40.0, 4.0), 12.0, down, finest), report(6.0, 4, Some(3), 0));
    // Along it: the first of three equal distances, and the first of three collisions.
    let past = travel(at(0.0, 0.0, -10.0), at(0.0, 0.0, 10.0), 2);
    assert_eq!(try_move(&S, ball(15.0, 10.0, 1.0), 1.0, past, finest), report(4.0, 0, None, 0));
    assert_eq!(try_move(&S, ball(15.0, 10.0, 1.0), 4.5, past, finest), report(4.0, 0, Some(0), 0));
    // A box's z bounds take z, its r bounds x; y moves nothing.
    let out = travel(origin, at(4.0, 1000.0, 8.0), 2);
    assert_eq!(try_move(&S, Body::Box(bounds(5.0, 6.0, 12.0, 13.0)), 3.0, out, finest), report(2.0, 0, Some(0), 3));
    let across = Body::Cylinder(bar(at(0.0, 0.0, 20.0), at(30.0, 0.0, 20.0), 1.0));
    let still = |steps| travel(origin, origin, steps);
    let coarse = Settings { tolerance: 0.01, most: 64, intervals: 4 };
    assert_eq!(try_move(&S, across, 0.0, still(3), coarse).map(|report| report.boxes), Ok(4 * 7));
    // Nothing to hit: +infinity at step 0.
    let axis = [0.0, 0.0, 20.0, 0.0, 0.0, 0.0];
    assert_eq!(try_move(&axis, ball(5.0, 0.0, 1.0), 1.0, down, finest), report(f64::INFINITY, 0, None, 0));
    // The lowest over what is given, then 19, then the first refused placement.
    let far = travel(origin, at(2e6, 0.0, 0.0), 0);
    assert_eq!(try_move(&S, ball(0.0, 0.0, -1.0), 1.0, far, finest), Err(Refusal::from(5)));
    assert_eq!(try_move(&S, ball(0.0, 0.0, -1.0), 1.0, still(0), finest), Err(Refusal::from(9)));
    assert_eq!(try_move(&with_radius(-1.0), ball(0.0, 0.0, -1.0), 1.0, still(0), finest), Err(Refusal::from(6)));
    let coarser = Settings { most: 0, ..finest };
    assert_eq!(try_move(&with_radius(-1.0), ball(0.0, 0.0, -1.0), 1.0, still(0), coarser), Err(Refusal::from(18)));
    for steps in [0, 4097, u32::MAX] {
        assert_eq!(
            try_move(&S, ball(1e6, 0.0, 1.0), 1.0, travel(at(1e5, 0.0, 0.0), origin, steps), finest),
            Err(Refusal::from(19))
        );
    }
    assert_eq!(
        try_move(&S, ball(1e6, 0.0, 1.0), 1.0, travel(at(1e5, 0.0, 0.0), origin, 4096), finest),
        Err(Refusal::from(5))
    );
    assert_eq!(
        try_move(&S, ball(1e6, 0.0, 1.0), 1.0, travel(origin, at(1e5, 0.0, 0.0), 4096), finest),
        Err(Refusal::from(5))
    );
    // A short axis that leans by little, far out: rounding tips it past the axis test.
    let short = Body::Cylinder(bar(origin, at(1.513e-10, 0.0, 1.08e-6), 1.0));
    assert!(try_move(&S, short, 1.0, still(1), finest).is_ok());
    assert_eq!(try_move(&S, short, 1.0, travel(origin, at(5e5, 0.0, 0.0), 1), finest), Err(Refusal::from(11)));
}

#[test]
fn the_version_is_the_crates() {
    let parts: Vec<u32> = VERSION.split('.').map(|part| part.parse().unwrap()).collect();
    assert_eq!(version(), 10_000 * parts[0] + 100 * parts[1] + parts[2]);
}

#[test]
fn verdicts() {
    let ball = Sphere { center: at(0.0, 0.0, 30.0), radius: 4.0 };
    assert_eq!(verdict_sphere(&S, ball, 6.0), Ok(false));
    assert_eq!(verdict_sphere(&S, ball, 6.0 + 2e-9), Ok(true));
    assert_eq!(verdict_box(&S, bounds(25.0, 30.0, 0.0, 5.0), 5.5), Ok(true));
    assert_eq!(verdict_cylinder(&S, bar(at(15.0, 0.0, 0.0), at(15.0, 0.0, 30.0), 2.0), 3.0), Ok(false));
    assert_eq!(verdict_convex(&[25.0, 0.0, 30.0, 0.0, 30.0, 5.0], &S, 4.0), Ok(false));
}

#[test]
fn assemblies() {
    let ball = |x, radius| Body::Sphere(Sphere { center: at(x, 0.0, 10.0), radius });
    let (far, inside) = (ball(30.0, 1.0), Body::Box(bounds(5.0, 6.0, 2.0, 11.0)));
    let (skew, reversed) = (bar(at(0.0, 0.0, 0.0), at(1.0, 0.0, 1.0), 1.0), bounds(5.0, 4.0, 0.0, 5.0));
    let (skew, reversed) = (Body::Cylinder(skew), Body::Box(reversed));
    assert_eq!(any_hit(&S, &[], 6.0), Ok(false));
    for count in [1, 63, 64] {
        let mut bodies = vec![far; count];
        assert_eq!(any_hit(&S, &bodies, 6.0), Ok(false));
        bodies[count - 1] = inside;
        assert_eq!(any_hit(&S, &bodies, 6.0), Ok(true));
    }
    assert_eq!(any_hit(&S, &[skew; 65], 6.0), Err(Refusal::from(17)));
    assert_eq!(any_hit(&with_radius(-1.0), &[skew; 65], 6.0), Err(Refusal::from(6)));
    assert_eq!(any_hit(&S, &[skew; 65], f64::NAN), Err(Refusal::from(4)));
    assert_eq!(any_hit(&S, &[inside, skew, reversed], 6.0), Err(Refusal::from(11)));
    assert_eq!(any_hit(&S, &[reversed, inside, skew], 6.0), Err(Refusal::from(10)));
    assert_eq!(any_hit(&S, &[inside, ball(8.0, -1.0)], 6.0), Err(Refusal::from(9)));
}

#[test]
fn builders() {
    let mut space = [7.0; 9];
    assert_eq!(build_section(&[0.0, 10.0, 20.0, 10.0], &mut space), Ok(&S[..]));
    assert_eq!(space[8], 7.0);
    let mut space = [7.0; 8];
    assert_eq!(build_polygon(&[0.0, 1.0, 1.0, 1.0, 2.0, 0.0, 0.0, 1.0], &mut space).map(<[f64]>::len), Ok(6));
}
