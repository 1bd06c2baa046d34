//! Request (x)'s witness in the machine's axes, written from its text. Its x and y are not the Rust's, which lays the radius out
//! by an angle; z has to be that of the Rust's own lift.

use crate::judge::vertices;
use crate::query::{Kind, Query};
use exact_hypot::hypot;
use revolve_exact::{Cylinder, RevolvedSolid, Sphere, Vec3, probe};
use table::Axis;

/// Distance, witness and edge.
#[derive(Clone, Copy, Debug, PartialEq)]
pub struct Lifted {
    pub distance: f64,
    pub witness: [f64; 3],
    pub edge: u32,
}

/// A rule that lays a witness, z and radius, out towards the body's middle in x and y.
pub type Rule = fn([f64; 2], (f64, f64)) -> [f64; 3];

/// (radius·x/h, radius·y/h, z) with h = hypot(x, y), multiplication first; h = 0 gives (radius, 0, z). A radius below 0 counts
/// as 0.
pub fn lift([x, y]: [f64; 2], (z, radius): (f64, f64)) -> [f64; 3] {
    let radius = if radius < 0.0 { 0.0 } else { radius };
    let h = hypot(x, y);
    if h == 0.0 { [radius, 0.0, z] } else { [radius * x / h, radius * y / h, z] }
}

/// x and y of the body's middle: a point's or a sphere's own, of a cylinder the means of its ends'.
pub fn middle(query: &Query) -> [f64; 2] {
    match query.kind.lifted() {
        Some(Kind::Cylinder) => {
            let [ax, ay, _, bx, by, _, _] = query.array();
            [(ax + bx) * 0.5, (ay + by) * 0.5]
        }
        _ => query.array(),
    }
}

/// The hit with its witness lifted.
pub fn of(query: &Query, hit: edges::Hit) -> Lifted {
    let witness = lift(middle(query), hit.witness);
    assert!(rust_z(query) == Some(witness[2]), "the Rust lifts to another z: {}", query.line());
    Lifted { distance: hit.distance, witness, edge: hit.edge }
}

/// The z that the Rust's own lift gives; of a point, which it does not lift, that of a sphere of radius 0 there. A cylinder along
/// Y, which it refuses, is asked for on exchanged coordinates, and keeps its z.
fn rust_z(query: &Query) -> Option<f64> {
    let solid: RevolvedSolid = probe::solid(&vertices(&query.lists[0]));
    let sphere = |[x, y, z]: [f64; 3], radius| solid.query_sphere(Sphere { center: Vec3::new(x, y, z), radius });
    let hit = match query.kind.lifted()? {
        Kind::Point => sphere(query.array(), 0.0),
        Kind::Sphere => sphere(query.array(), query.numbers[3]),
        _ => {
            let body @ [ax, ay, az, bx, by, bz, radius] = query.array();
            let along_y = table::axis(body) == Some(Axis::AlongY);
            let end = |x, y, z| if along_y { Vec3::new(y, x, z) } else { Vec3::new(x, y, z) };
            solid.query_cylinder(Cylinder { a: end(ax, ay, az), b: end(bx, by, bz), radius })
        }
    };
    Some(hit?.point.z)
}
