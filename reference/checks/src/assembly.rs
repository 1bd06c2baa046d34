//! Request (iii), does anything hit: the answer expected of the table and of single verdicts, and that of the port.

use crate::answer::Answer;
use crate::judge;
use crate::query::{Kind, Query};
use jorghipa::{Aabb, Cylinder, Point, Refusal, Sphere, bare, raw};
use table::Body;

#[derive(Clone, Debug)]
pub struct Assembly {
    pub section: Vec<f64>,
    pub bodies: Vec<Body>,
    pub clearance: f64,
}

/// Yes or no by the verdict on each body, all of them judged; or the number.
pub fn expected(assembly: &Assembly) -> Result<bool, u32> {
    table::assembly(&assembly.section, &assembly.bodies, assembly.clearance)?;
    let hits: Vec<bool> = assembly.bodies.iter().map(|body| single(assembly, body)).collect();
    Ok(hits.contains(&true))
}

fn single(assembly: &Assembly, body: &Body) -> bool {
    let kind = match body {
        Body::Sphere(_) => Kind::VerdictSphere,
        Body::Box(_) => Kind::VerdictBox,
        Body::Cylinder(_) => Kind::VerdictCylinder,
    };
    let numbers = [body.numbers(), &[assembly.clearance]].concat();
    match judge::expected(&Query::new(kind, std::slice::from_ref(&assembly.section), &numbers)) {
        Answer::Verdict(collision) => collision,
        other => panic!("no verdict on a body of an assembly that the table accepts: {other:?}"),
    }
}

/// The body as the wrapper takes it.
pub fn wrapped(body: &Body) -> jorghipa::Body {
    match *body {
        Body::Sphere([x, y, z, radius]) => jorghipa::Body::Sphere(Sphere { center: Point { x, y, z }, radius }),
        Body::Box([z0, z1, r0, r1]) => jorghipa::Body::Box(Aabb { z0, z1, r0, r1 }),
        Body::Cylinder([ax, ay, az, bx, by, bz, radius]) => {
            let (a, b) = (Point { x: ax, y: ay, z: az }, Point { x: bx, y: by, z: bz });
            jorghipa::Body::Cylinder(Cylinder { a, b, radius })
        }
    }
}

/// The lists that C takes. What a body does not use of its seven numbers is a NaN.
pub fn lists(assembly: &Assembly) -> (Vec<u32>, Vec<f64>) {
    let kinds = assembly.bodies.iter().map(|body| match body {
        Body::Sphere(_) => 2,
        Body::Box(_) => 3,
        Body::Cylinder(_) => 4,
    });
    let numbers = assembly.bodies.iter().flat_map(|body| {
        let given = body.numbers();
        (0..7).map(|i| given.get(i).copied().unwrap_or(f64::NAN)).collect::<Vec<_>>()
    });
    (kinds.collect(), numbers.collect())
}

/// The C function on these lists; an error that is 0 tells of a place that a refused call changed.
pub fn called(section: &[f64], kinds: &[u32], numbers: &[f64], clearance: f64) -> Result<bool, u32> {
    let mut hit = 77;
    // SAFETY: the lists are valid for their counts, and the place is distinct from them.
    let number = unsafe {
        raw::jorghipa_any_hit(
            section.as_ptr(),
            section.len(),
            kinds.as_ptr(),
            kinds.len(),
            numbers.as_ptr(),
            numbers.len(),
            clearance,
            &mut hit,
        )
    };
    match (number, hit) {
        (0, 0) => Ok(false),
        (0, 1) => Ok(true),
        (number, 77) => Err(number),
        _ => Err(0),
    }
}

/// Both forms of the port, the C function and the wrapper.
pub fn answers(assembly: &Assembly) -> [Result<bool, u32>; 2] {
    let (kinds, numbers) = lists(assembly);
    let bodies: Vec<jorghipa::Body> = assembly.bodies.iter().map(wrapped).collect();
    [
        called(&assembly.section, &kinds, &numbers, assembly.clearance),
        bare::any_hit(&assembly.section, &bodies, assembly.clearance).map_err(Refusal::number),
    ]
}
