//! A section that was accepted answers as its bare numbers do, and is refused as they are.

mod common;

use common::*;
use jorghipa::*;

fn vertices(numbers: &[f64]) -> Vec<Vertex> {
    Vertex::list(numbers.as_chunks().0)
}

fn s() -> Section {
    Section::new(vertices(&S)).unwrap()
}

#[test]
fn acceptance() {
    assert_eq!((s().numbers(), s().vertices()), (&S[..], &vertices(&S)[..]));
    assert_eq!(Section::new(Vec::new()), Err(Refusal::TooFewVertices));
    assert_eq!(Section::new(vertices(&S[..4])), Err(Refusal::TooFewVertices));
    assert_eq!(Section::new(vec![Vertex { z: 0.0, radius: 1.0 }; 257]), Err(Refusal::TooManyVertices));
    assert_eq!(Section::new(vertices(&with_radius(f64::NAN))), Err(Refusal::NotFinite));
    assert_eq!(Section::new(vertices(&with_radius(2e6))), Err(Refusal::TooLarge));
    assert_eq!(Section::new(vertices(&with_radius(-1.0))), Err(Refusal::RadiusBelowAxis));
    // A query takes radii from -1e-9 up to 0 as they are, and so does the section.
    assert_eq!(Section::new(vertices(&with_radius(-1e-9))).unwrap().numbers(), with_radius(-1e-9));
}

#[test]
fn built() {
    let profile = vertices(&[0.0, 10.0, 20.0, 10.0]);
    assert_eq!(Section::build_section(&profile), Ok(s()));
    assert_eq!(Section::build_section(&[]), Err(Refusal::TooFewVertices));
    assert_eq!(Section::build_section(&vertices(&[0.0, 10.0, 0.0, 0.0])), Err(Refusal::TooFewKept));
    assert_eq!(Section::build_section(&[profile[0]; 255]), Err(Refusal::TooManyVertices));
    let repeated = [&vertices(&S)[..], &profile[..1]].concat();
    assert_eq!(Section::build_polygon(&repeated), Ok(s()));
    assert_eq!(Section::build_polygon(&[profile[0]; 3]), Err(Refusal::TooFewKept));
}

#[test]
fn queries() {
    let (s, low) = (s(), Section::new(vertices(&with_radius(-1e-9))).unwrap());
    let corners = [25.0, 0.0, 30.0, 0.0, 30.0, 5.0];
    let across = bar(at(12.0, 0.0, 10.0), at(30.0, 0.0, 10.0), 2.0);
    let coarse = Settings { tolerance: 0.01, most: 64, intervals: 4 };
    for section in [&s, &low] {
        let numbers = section.numbers();
        for z in [30.0, 10.0, f64::NAN, 2e6] {
            let ball = Sphere { center: at(3.0, 4.0, z), radius: z - 26.0 };
            assert_eq!(section.point(at(3.0, 4.0, z)), bare::point(numbers, at(3.0, 4.0, z)));
            assert_eq!(section.sphere(ball), bare::sphere(numbers, ball));
            assert_eq!(section.aabb(bounds(25.0, z, 0.0, 5.0)), bare::aabb(numbers, bounds(25.0, z, 0.0, 5.0)));
            assert_eq!(section.lifted_point(at(3.0, 4.0, z)), bare::lifted_point(numbers, at(3.0, 4.0, z)));
            assert_eq!(section.lifted_sphere(ball), bare::lifted_sphere(numbers, ball));
            assert_eq!(section.verdict_sphere(ball, 6.5), bare::verdict_sphere(numbers, ball, 6.5));
            let holder = bounds(25.0, z, 0.0, 5.0);
            assert_eq!(section.verdict_box(holder, 5.5), bare::verdict_box(numbers, holder, 5.5));
            let bodies = [Body::from(holder), ball.into(), across.into()];
            assert_eq!(section.any_hit(&bodies, 1.0), bare::any_hit(numbers, &bodies, 1.0));
        }
        assert_eq!(section.convex(&vertices(&corners)), bare::convex(&corners, numbers));
        assert_eq!(section.verdict_convex(&vertices(&corners), 5.5), Ok(true));
        assert_eq!(section.cylinder(across, coarse), bare::cylinder(numbers, across, coarse));
        assert_eq!(section.lifted_cylinder(across), bare::lifted_cylinder(numbers, across));
        assert_eq!(section.verdict_cylinder(across, 2.5), Ok(true));
        let walk = section.cylinder(across, Settings::FINEST).unwrap();
        let judged = JudgedWalk { collision: true, boxes: walk.boxes, waiting: walk.waiting, cut: walk.cut };
        assert_eq!(section.verdict_walk(across, 2.5), Ok(judged));
        let travel = Travel { start: at(0.0, 0.0, 0.0), end: at(10.0, 0.0, 0.0), steps: 4 };
        assert_eq!(
            section.try_move(across.into(), 2.5, travel, coarse),
            bare::try_move(numbers, across.into(), 2.5, travel, coarse)
        );
    }
}

#[test]
fn pairs() {
    let (s, same) = (s(), s());
    let away = Section::build_section(&vertices(&[-100.0, 10.0, -80.0, 10.0])).unwrap();
    let ball = Body::Sphere(Sphere { center: at(0.0, 0.0, 30.0), radius: 4.0 });
    let told = |nearer: Result<Nearer<'_>, Refusal>| {
        nearer.map(|n| (std::ptr::from_ref(n.section), n.work, n.hit.hit.distance))
    };
    assert_eq!(told(pair(&s, &away, ball)), Ok((&raw const s, false, 6.0)));
    assert_eq!(told(pair(&away, &s, ball)), Ok((&raw const s, true, 6.0)));
    // An equal distance: the chuck wins, and it is its section that comes back.
    assert_eq!(told(pair(&s, &same, ball)), Ok((&raw const s, false, 6.0)));
    let corners = vertices(&[26.0, 0.0, 30.0, 0.0, 30.0, 5.0]);
    assert_eq!(told(pair_convex(&away, &s, &corners)), Ok((&raw const s, true, 6.0)));
    assert_eq!(told(pair_convex(&away, &s, &corners[..2])), Err(Refusal::TooFewVertices));
}
