//! Every refusal, and the order of 6.

mod common;

use common::*;
use jorghipa::bare::*;
#[cfg(feature = "records")]
use jorghipa::{Cylinder, Vertex};
use jorghipa::{Refusal, Settings, Sphere};

#[test]
fn refusals() {
    let origin = at(0.0, 0.0, 0.0);
    assert_eq!(point(&S[..3], origin), Err(Refusal::from(1)));
    assert_eq!(point(&S[..4], origin), Err(Refusal::from(2)));
    assert_eq!(point(&[], origin), Err(Refusal::from(2)));
    assert_eq!(point(&[0.0; 514], origin), Err(Refusal::from(3)));
    assert_eq!(point(&S, at(0.0, 0.0, f64::NAN)), Err(Refusal::from(4)));
    assert_eq!(point(&S, at(0.0, 0.0, 1_048_577.0)), Err(Refusal::from(5)));
    let mut space = [7.0; 8];
    assert_eq!(build_section(&[0.0, -1.0, 20.0, 10.0], &mut space), Err(Refusal::from(6)));
    assert_eq!(build_section(&[0.0, 10.0, 20.0, 10.0], &mut space[..6]), Err(Refusal::from(7)));
    assert_eq!(build_section(&[0.0, 10.0, 0.0, 0.0], &mut space), Err(Refusal::from(8)));
    assert_eq!(space, [7.0; 8]);
    assert_eq!(sphere(&S, Sphere { center: origin, radius: -1.0 }), Err(Refusal::from(9)));
    assert_eq!(aabb(&S, bounds(5.0, 4.0, 0.0, 5.0)), Err(Refusal::from(10)));
    assert_eq!(cylinder(&S, bar(origin, at(1.0, 0.0, 1.0), 1.0), Settings::FINEST), Err(Refusal::from(11)));
}

/// 6 in every call that takes a section, after 4 and 5 of the body, after 18, and before 9, 10 and 11.
#[test]
fn radii_below_the_axis() {
    let (low, origin, out_of_range) = (with_radius(-1.0), at(0.0, 0.0, 0.0), Settings { most: 0, ..Settings::FINEST });
    let (ball, crossed) = (Sphere { center: origin, radius: -1.0 }, bounds(5.0, 4.0, 0.0, 5.0));
    let (skew, far) = (bar(origin, at(1.0, 0.0, 1.0), -1.0), at(0.0, 0.0, 2e6));
    assert_eq!(point(&low, origin), Err(Refusal::from(6)));
    assert_eq!(point(&low, at(f64::NAN, 0.0, 0.0)), Err(Refusal::from(4)));
    assert_eq!(point(&low, far), Err(Refusal::from(5)));
    assert_eq!((sphere(&low, ball), verdict_sphere(&low, ball, 1.0)), (Err(Refusal::from(6)), Err(Refusal::from(6))));
    assert_eq!(verdict_sphere(&low, ball, f64::NAN), Err(Refusal::from(4)));
    assert_eq!((aabb(&low, crossed), verdict_box(&low, crossed, 1.0)), (Err(Refusal::from(6)), Err(Refusal::from(6))));
    assert_eq!(cylinder(&low, skew, Settings::FINEST), Err(Refusal::from(6)));
    assert_eq!(cylinder(&low, skew, out_of_range), Err(Refusal::from(18)));
    assert_eq!(verdict_cylinder(&low, skew, 1.0), Err(Refusal::from(6)));
    assert_eq!((convex(&S, &low), verdict_convex(&S, &low, 1.0)), (Err(Refusal::from(6)), Err(Refusal::from(6))));
    // A convex body may lie below the spindle.
    assert!(convex(&low, &S).is_ok() && verdict_convex(&low, &S, 1.0).is_ok());
    for taken in [-1e-9, -5e-324, -0.0] {
        assert!(point(&with_radius(taken), origin).is_ok());
    }
    assert_eq!(point(&with_radius((-1e-9f64).next_down()), origin), Err(Refusal::from(6)));
}

/// Both builders refuse before 7 and 8, and raise before they drop: the second point repeats the first.
#[test]
fn radii_of_builders() {
    let mut space = [7.0; 10];
    for build in [build_section, build_polygon] {
        assert_eq!(build(&[0.0, -1.0, 0.0, -1.0, 0.0, -1.0], &mut space[..4]), Err(Refusal::from(6)));
    }
    assert_eq!(space, [7.0; 10]);
    let points = [0.0, -1e-9, 0.0, -5e-10, 10.0, 10.0, 20.0, 0.0];
    assert_eq!(build_polygon(&points, &mut space), Ok(&[0.0, 0.0, 10.0, 10.0, 20.0, 0.0][..]));
    assert_eq!(build_section(&points[..6], &mut space), Ok(&[0.0, 0.0, 10.0, 10.0, 10.0, 0.0, 0.0, 0.0][..]));
}

#[cfg(feature = "records")]
#[test]
fn records() {
    use jorghipa::records::*;
    let section: Vec<Vertex> = S.chunks(2).map(|v| Vertex { z: v[0], radius: v[1] }).collect();
    let ball = Sphere { center: at(0.0, 0.0, 30.0), radius: 4.0 };
    let along = bar(at(15.0, 0.0, 0.0), at(15.0, 0.0, 30.0), 2.0);
    assert_eq!(point_of(&section, at(3.0, 4.0, 30.0)), point(&S, at(3.0, 4.0, 30.0)));
    assert_eq!(sphere_of(&section, ball), sphere(&S, ball));
    assert_eq!(box_of(&section, bounds(25.0, 30.0, 0.0, 5.0)), aabb(&S, bounds(25.0, 30.0, 0.0, 5.0)));
    assert_eq!(cylinder_of(&section, along), cylinder(&S, along, Settings::default()));
    assert_eq!(point_of(&section[..2], at(0.0, 0.0, 0.0)), Err(Refusal::from(2)));
    let low: Vec<Vertex> = with_radius(-1.0).chunks(2).map(|v| Vertex { z: v[0], radius: v[1] }).collect();
    assert_eq!(point_of(&low, at(0.0, 0.0, 0.0)), Err(Refusal::from(6)));
    assert_eq!(sphere_of(&low, Sphere { radius: -1.0, ..ball }), Err(Refusal::from(6)));
    assert_eq!(box_of(&low, bounds(5.0, 4.0, 0.0, 5.0)), Err(Refusal::from(6)));
    assert_eq!(cylinder_of(&low, Cylinder { radius: -1.0, ..along }), Err(Refusal::from(6)));
}
