//! Assemblies: any number of bodies about a section, or all but one far off; bad ones among them, and bad sections.

use super::{STYLES, Style, bodies, list, section};
use crate::assembly::Assembly;
use crate::random::Random;
use table::Body;

pub fn body(random: &mut Random, style: Style, section: &[(f64, f64)]) -> Body {
    let exact = "a generator makes all numbers of its body";
    match random.below(3) {
        0 => Body::Sphere(bodies::sphere(random, style, section).try_into().expect(exact)),
        1 => Body::Box(bodies::bounds(random, style, section).try_into().expect(exact)),
        _ => Body::Cylinder(bodies::cylinder(random, style, section).try_into().expect(exact)),
    }
}

/// Bad by itself: 4, 5, 9, 10 or 11.
pub fn bad_body(random: &mut Random) -> Body {
    let sphere = |x, radius| Body::Sphere([x, 0.0, 10.0, radius]);
    random.pick(&[
        sphere(f64::NAN, -1.0),
        sphere(2e6, -1.0),
        sphere(30.0, -1.0),
        Body::Box([f64::INFINITY, 0.0, 0.0, 1.0]),
        Body::Box([5.0, 4.0, 0.0, 1.0]),
        Body::Box([4.0, 5.0, 1.0, -2e6]),
        Body::Cylinder([0.0, 0.0, 0.0, 1.0, 0.0, 1.0, 1.0]),
        Body::Cylinder([0.0, 0.0, 0.0, 1.0, 0.0, 1.0, -1.0]),
    ])
}

pub fn bad_section(random: &mut Random, section: &mut Vec<f64>) {
    let i = random.below(section.len());
    match random.below(6) {
        0 => section.push(1.0),
        1 => section.truncate(4),
        2 => section.resize(514, 1.0),
        3 => section[i] = f64::NAN,
        4 => section[i] = -2e6,
        _ => section[1] = -1.0,
    }
}

pub fn assembly(random: &mut Random) -> Assembly {
    let style = random.pick(&STYLES);
    let vertices = section(random, style, 24);
    let count = random.pick(&[0, 1, 2, 3, 5, 8, 63, 64, 64, 65, 66, 100]);
    let mut bodies: Vec<Body> = (0..count).map(|_| body(random, style, &vertices)).collect();
    if count > 0 && random.chance(1, 2) {
        let kept = random.below(count);
        let far = Body::Sphere([table::LIMIT, 0.0, 0.0, 0.0]);
        bodies.iter_mut().enumerate().filter(|(i, _)| *i != kept).for_each(|(_, body)| *body = far);
    }
    if count > 0 && random.chance(1, 3) {
        for _ in 0..random.pick(&[1, 2, 3]) {
            bodies[random.below(count)] = bad_body(random);
        }
    }
    let mut section = list(&vertices);
    if random.chance(1, 8) {
        bad_section(random, &mut section);
    }
    let clearance = random.pick(&[0.0, 0.0, 0.5, 1e-9, 2.0, 25.0, -1e-8, -1.0, -25.0, -1000.0]);
    let clearance = if random.chance(1, 16) { random.pick(&[f64::NAN, 2e6]) } else { clearance };
    Assembly { section, bodies, clearance }
}
