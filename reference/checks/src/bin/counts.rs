//! Makes the same calls that `bench` times, a given number of them, for a tool that counts instructions. `counts.py` runs it.

use checks::judge::vertices;
use checks::random::Random;
use checks::scenes::{Body, bar, bars_across, body, section};
use jorghipa::{Aabb, Cylinder, Point, Settings, Sphere, bare};
use std::hint::black_box;

const USAGE: &str = "usage: counts CALL VERTICES WAY CALLS
CALL: 0 point, 1 sphere, 2 box, 3 convex body of 8 corners, 4 cylinder along, 5 cylinder across whose walk is cut.
WAY: 0 the Rust with libm's hypot, 1 the Rust with the exact one, 2 the port.";

macro_rules! rust {
    ($copy:ident, $call:expr, $points:expr, $bodies:expr, $bars:expr, $calls:expr) => {{
        use $copy::{Cylinder, Vec3, aabb_polygon_distance, convex_polygon_distance, probe};
        let (solid, at) = (probe::solid($points), |p: Point| Vec3::new(p.x, p.y, p.z));
        for i in 0..$calls {
            let (b, c) = (&$bodies[i % $bodies.len()], $bars[i % $bars.len()]);
            match $call {
                0 => drop(black_box(solid.signed_distance(Vec3::new(b.x, b.y, b.z)))),
                1 => drop(black_box(solid.signed_distance(Vec3::new(b.x, b.y, b.z)).map(|d| d - b.radius))),
                2 => drop(black_box(aabb_polygon_distance(b.z, b.z + 5.0, b.x, b.x + b.radius, $points))),
                3 => drop(black_box(convex_polygon_distance(&b.corners, $points))),
                _ => drop(black_box(solid.query_cylinder(Cylinder { a: at(c.a), b: at(c.b), radius: c.radius }))),
            }
        }
    }};
}

fn port(call: usize, list: &[f64], bodies: &[Body], bars: &[Cylinder], calls: usize) {
    for i in 0..calls {
        let (b, c) = (&bodies[i % bodies.len()], bars[i % bars.len()]);
        let place = Point { x: b.x, y: b.y, z: b.z };
        match call {
            0 => drop(black_box(bare::point(list, place))),
            1 => drop(black_box(bare::sphere(list, Sphere { center: place, radius: b.radius }))),
            2 => drop(black_box(bare::aabb(list, Aabb { z0: b.z, z1: b.z + 5.0, r0: b.x, r1: b.x + b.radius }))),
            3 => drop(black_box(bare::convex(&b.octagon, list))),
            _ => drop(black_box(bare::cylinder(list, c, Settings::FINEST))),
        }
    }
}

fn main() {
    let numbers = arguments::numbers(&arguments::words(USAGE), [0, 4, 2, 64]);
    let [call, count, way, calls] =
        numbers.unwrap_or_else(|problem| arguments::refuse(&problem, USAGE)).map(|n| n as usize);
    let list = section(count);
    let points = vertices(&list);
    let mut random = Random::new(1, 0);
    let bodies: Vec<Body> = (0..64).map(|_| body(&mut random)).collect();
    let bars = if call == 5 { bars_across(&list, true) } else { bodies.iter().map(|b| bar(b, false)).collect() };
    match way {
        0 => rust!(revolve_libm, call, &points, bodies, bars, calls),
        1 => rust!(revolve_exact, call, &points, bodies, bars, calls),
        _ => port(call, &list, &bodies, &bars, calls),
    }
}
