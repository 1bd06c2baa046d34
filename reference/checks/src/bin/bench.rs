//! Times the Rust with libm's hypot, the Rust with the exact one, and the port: same process, same inputs.

use checks::judge::vertices;
use checks::random::Random;
use checks::scenes::{Body, bar, bars_across, body, section};
use checks::timing::{Row, Run, Table, over};
use jorghipa::{Aabb, Cylinder, Point, Settings, Sphere, Travel, bare};

const USAGE: &str = "usage: bench [MILLISECONDS]
Times the Rust with libm's hypot, the Rust with the exact one, and the port, and prints medians as a markdown table.
MILLISECONDS (20 unless given) is the length of a sample. The last line is the worst row.";

const BODIES: usize = 64;
const CLEARANCE: f64 = 2.0;

macro_rules! rust {
    ($copy:ident, $solid:expr, $points:expr, $bodies:expr) => {{
        use $copy::{Vec3, aabb_polygon_distance, convex_polygon_distance};
        let (solid, points) = ($solid, $points);
        [
            over($bodies, move |b: &Body| solid.signed_distance(Vec3::new(b.x, b.y, b.z))),
            over($bodies, move |b: &Body| solid.signed_distance(Vec3::new(b.x, b.y, b.z)).map(|d| d - b.radius)),
            over($bodies, move |b: &Body| aabb_polygon_distance(b.z, b.z + 5.0, b.x, b.x + b.radius, points)),
            over($bodies, move |b: &Body| convex_polygon_distance(&b.corners, points)),
            over($bodies, move |b: &Body| {
                aabb_polygon_distance(b.z, b.z + 5.0, b.x, b.x + b.radius, points).map(|h| h.0 + 1e-9 < CLEARANCE)
            }),
        ]
    }};
}

fn queries(table: &mut Table) {
    let mut random = Random::new(1, 0);
    let bodies: Vec<Body> = (0..BODIES).map(|_| body(&mut random)).collect();
    for count in [4, 16, 64, 256] {
        let list = section(count);
        assert_eq!(list.len(), 2 * count);
        let (list, points) = (list.as_slice(), vertices(&list));
        let (libm, exact) = (revolve_libm::probe::solid(&points), revolve_exact::probe::solid(&points));
        let port: [Run; 5] = [
            over(&bodies, move |b| bare::point(list, Point { x: b.x, y: b.y, z: b.z })),
            over(&bodies, move |b| {
                bare::sphere(list, Sphere { center: Point { x: b.x, y: b.y, z: b.z }, radius: b.radius })
            }),
            over(&bodies, move |b| bare::aabb(list, Aabb { z0: b.z, z1: b.z + 5.0, r0: b.x, r1: b.x + b.radius })),
            over(&bodies, move |b| bare::convex(&b.octagon, list)),
            over(&bodies, move |b| {
                let bounds = Aabb { z0: b.z, z1: b.z + 5.0, r0: b.x, r1: b.x + b.radius };
                bare::verdict_box(list, bounds, CLEARANCE)
            }),
        ];
        let libm = rust!(revolve_libm, &libm, &points, &bodies);
        let exact = rust!(revolve_exact, &exact, &points, &bodies);
        let names = ["point", "sphere", "box", "convex, 8 corners", "verdict of a box"];
        for (((name, libm), exact), port) in names.into_iter().zip(libm).zip(exact).zip(port) {
            table.row(Row { name: name.into(), vertices: count, ways: [libm, exact, port] });
        }
    }
}

macro_rules! rust_cylinder {
    ($copy:ident, $points:expr, $bars:expr) => {{
        use $copy::{Cylinder, Vec3};
        let solid = $copy::probe::solid($points);
        let at = |p: Point| Vec3::new(p.x, p.y, p.z);
        over($bars, move |c| solid.query_cylinder(Cylinder { a: at(c.a), b: at(c.b), radius: c.radius }))
    }};
}

/// Coarse settings.
const COARSE: Settings = Settings { tolerance: 0.01, most: 64, intervals: 4 };

/// The Rust has no settings but the finest.
fn cylinders(table: &mut Table) {
    for count in [4, 16, 64, 256] {
        let list = section(count);
        let points = vertices(&list);
        let mut random = Random::new(3, 0);
        let along: Vec<Cylinder> = (0..4).map(|_| bar(&body(&mut random), false)).collect();
        let [cut, uncut] = [true, false].map(|cut| bars_across(&list, cut));
        let kinds = [
            ("cylinder along", &along, Settings::FINEST),
            ("cylinder across, cut", &cut, Settings::FINEST),
            ("cylinder across, uncut", &uncut, Settings::FINEST),
            ("cylinder across, cut; port at 0.01, 64, 4", &cut, COARSE),
        ];
        for (name, bars, settings) in kinds {
            let port = over(bars, |&c| bare::cylinder(&list, c, settings));
            let ways =
                [rust_cylinder!(revolve_libm, &points, bars), rust_cylinder!(revolve_exact, &points, bars), port];
            table.row(Row { name: name.into(), vertices: count, ways });
        }
    }
}

macro_rules! rust_any {
    ($copy:ident, $points:expr, $boxes:expr, $once:expr) => {{
        let (points, boxes) = ($points, $boxes);
        over($once, move |()| {
            boxes.iter().any(|x: &Aabb| {
                let hit = $copy::aabb_polygon_distance(x.z0, x.z1, x.r0, x.r1, points);
                hit.is_some_and(|hit| hit.0 + 1e-9 < CLEARANCE)
            })
        })
    }};
}

/// 64 boxes clear of the section, one of them put into it or none. The Rust has no such call: it judges box after box until one
/// collides, and checks none of those behind it.
fn assemblies(table: &mut Table) {
    for (name, place) in [("the first", Some(0)), ("the last", Some(BODIES - 1)), ("none", None)] {
        for count in [4, 16, 64, 256] {
            let list = section(count);
            let points = vertices(&list);
            let mut boxes: Vec<Aabb> = (0..BODIES)
                .map(|i| Aabb { z0: 3.0 * i as f64, z1: 3.0 * i as f64 + 2.0, r0: 60.0, r1: 70.0 })
                .collect();
            place.into_iter().for_each(|i: usize| boxes[i] = Aabb { z0: -5.0, z1: 8.0, r0: 4.0, r1: 60.0 });
            let bodies: Vec<jorghipa::Body> = boxes.iter().copied().map(jorghipa::Body::Box).collect();
            assert_eq!(bare::any_hit(&list, &bodies, CLEARANCE), Ok(place.is_some()));
            let once = [()];
            let ways = [
                rust_any!(revolve_libm, &points, &boxes, &once),
                rust_any!(revolve_exact, &points, &boxes, &once),
                over(&once, |()| bare::any_hit(&list, &bodies, CLEARANCE)),
            ];
            table.row(Row { name: format!("any hit of 64 boxes, {name} colliding"), vertices: count, ways });
        }
    }
}

/// From z -40 to z 240, in 4,096 steps.
const TRAVEL: Travel =
    Travel { start: Point { x: 0.0, y: 0.0, z: -40.0 }, end: Point { x: 0.0, y: 0.0, z: 240.0 }, steps: 4096 };

/// The first smallest distance of all steps and whether one collides, by `distance` of the offset in z.
fn by_steps(distance: impl Fn(f64) -> f64) -> (f64, u32, bool) {
    let Travel { start, end, steps } = TRAVEL;
    (0..=steps).fold((f64::INFINITY, 0, false), |(best, step, hits), i| {
        let d = distance(start.z + (end.z - start.z) * f64::from(i) / f64::from(steps));
        let (best, step) = if d < best { (d, i) } else { (best, step) };
        (best, step, hits || d + 1e-9 < CLEARANCE)
    })
}

macro_rules! rust_moves {
    ($copy:ident, $points:expr, $once:expr) => {{
        use $copy::{Vec3, aabb_polygon_distance};
        let (points, solid) = ($points, $copy::probe::solid($points));
        let far = |z| aabb_polygon_distance(z, z + 5.0, 60.0, 70.0, points).map_or(f64::NAN, |hit| hit.0);
        [
            over($once, move |()| {
                by_steps(|z| solid.signed_distance(Vec3::new(60.0, 0.0, z)).map_or(f64::NAN, |d| d - 2.0))
            }),
            over($once, move |()| by_steps(far)),
        ]
    }};
}

/// A sphere and a box led along the section in 4,096 steps. The Rust has no such call: it asks for each step.
fn moves(table: &mut Table) {
    for count in [4, 16, 64] {
        let list = section(count);
        let (list, points, once) = (list.as_slice(), vertices(&list), [()]);
        let ball = Sphere { center: Point { x: 60.0, y: 0.0, z: 0.0 }, radius: 2.0 };
        let bodies = [jorghipa::Body::Sphere(ball), jorghipa::Body::Box(Aabb { z0: 0.0, z1: 5.0, r0: 60.0, r1: 70.0 })];
        let port =
            bodies.map(|body| over(&once, move |()| bare::try_move(list, body, CLEARANCE, TRAVEL, Settings::FINEST)));
        let (libm, exact) = (rust_moves!(revolve_libm, &points, &once), rust_moves!(revolve_exact, &points, &once));
        for (((name, libm), exact), port) in ["sphere", "box"].into_iter().zip(libm).zip(exact).zip(port) {
            table.row(Row { name: format!("4,096 steps of a {name}"), vertices: count, ways: [libm, exact, port] });
        }
    }
}

fn roots(table: &mut Table) {
    let mut random = Random::new(2, 0);
    let pairs: Vec<(f64, f64)> = (0..1024).map(|_| (random.between(-50.0, 150.0), random.between(0.0, 60.0))).collect();
    let hypots: [fn(f64, f64) -> f64; 3] = [|a, b| f64::hypot(a, b), |a, b| exact_hypot::hypot(a, b), jorghipa::hypot];
    let squares: [fn(f64) -> f64; 3] = [|x| f64::sqrt(x), |x| exact_hypot::sqrt(x), jorghipa::sqrt];
    let ways = hypots.map(|hypot| over(&pairs, move |&(a, b)| hypot(a, b)));
    table.row(Row { name: "hypot, throughput".into(), vertices: 0, ways });
    let ways = hypots.map(|hypot| {
        let mut x = 1.0;
        over(&pairs, move |&(_, b)| {
            x = hypot(x, b) * 0.7;
            x
        })
    });
    table.row(Row { name: "hypot, chained".into(), vertices: 0, ways });
    let ways = squares.map(|sqrt| over(&pairs, move |&(_, b)| sqrt(b)));
    table.row(Row { name: "sqrt, throughput".into(), vertices: 0, ways });
    let ways = squares.map(|sqrt| {
        let mut x = 1.0;
        over(&pairs, move |&(_, b)| {
            x = sqrt(x + b);
            x
        })
    });
    table.row(Row { name: "sqrt, chained".into(), vertices: 0, ways });
}

fn main() {
    let numbers = arguments::numbers(&arguments::words(USAGE), [20]);
    let [milliseconds] = numbers.unwrap_or_else(|problem| arguments::refuse(&problem, USAGE));
    let mut table = Table::new(milliseconds);
    queries(&mut table);
    assemblies(&mut table);
    moves(&mut table);
    cylinders(&mut table);
    roots(&mut table);
    table.end();
}
