//! The edge of a hit: hand-computed ones, and wrong judges, each of which the generated queries must find out.

use checks::answer::Answer;
use checks::generate;
use checks::judge::{expected, vertices};
use checks::query::{Kind, Query};
use checks::random::Random;
use checks::walk::{self, Band};
use edges::{Hit, box_gap, edges, last_inside};
use revolve_exact::probe::{self, Pair};
use table::Axis;

const S: [Pair; 4] = [(0.0, 10.0), (20.0, 10.0), (20.0, 0.0), (0.0, 0.0)];

fn hit(distance: f64, witness: Pair, edge: u32) -> Option<Hit> {
    Some(Hit { distance, witness, edge })
}

/// Top, face, axis and back are edges 0 to 3 of S.
#[test]
fn edges_of_s() {
    // All three that count are as near.
    assert_eq!(edges::point(&S, [0.0, 0.0, 10.0]), hit(-10.0, (10.0, 10.0), 0));
    assert_eq!(edges::point(&S, [3.0, 4.0, 30.0]), hit(10.0, (20.0, 5.0), 1));
    assert_eq!(edges::point(&S, [5.0, 0.0, -2.0]), hit(2.0, (0.0, 5.0), 3));
    // Beyond a corner both of its edges are as near, and the first wins.
    assert_eq!(edges::point(&S, [14.0, 0.0, 23.0]), hit(5.0, (20.0, 10.0), 0));
    assert_eq!(edges::point(&S, [14.0, 0.0, -3.0]), hit(5.0, (0.0, 10.0), 0));
    assert_eq!(edges::sphere(&S, [0.0, 0.0, 30.0, 4.0]), hit(6.0, (20.0, 0.0), 1));
    // The axis edge counts for boxes; the face stands before it.
    assert_eq!(edges::aabb(&S, [25.0, 30.0, 0.0, 5.0]), hit(5.0, (20.0, 0.0), 1));
    assert_eq!(edges::aabb(&S, [5.0, 6.0, -3.0, -1.0]).map(|hit| hit.edge), Some(3));
    assert_eq!(edges::aabb(&S, [18.0, 30.0, 0.0, 5.0]), hit(-2.0, (20.0, 0.0), 1));
    assert_eq!(edges::aabb(&S, [20.0, 25.0, 0.0, 5.0]), hit(0.0, (20.0, 5.0), 1));
    // Vertices 0 and 1 lie inside, and the last of them takes over.
    assert_eq!(edges::aabb(&S, [-5.0, 25.0, 5.0, 15.0]), hit(-1e-8, (20.0, 10.0), 1));
    // The corner (16, 9) lies 1 below the top; vertex 1 takes over, though the penetration is the result.
    assert_eq!(edges::aabb(&S, [16.0, 30.0, 9.0, 12.0]), hit(-1.0, (20.0, 10.0), 1));
    // The clip of the top enters the box at its corner, and so does that of the face.
    assert_eq!(edges::aabb(&S, [20.0, 25.0, 10.0, 15.0]), hit(0.0, (20.0, 10.0), 0));
}

#[test]
fn edges_of_s_and_convex_bodies() {
    let boxed = |z0, z1, r0, r1| [(z0, r0), (z1, r0), (z1, r1), (z0, r1)];
    assert_eq!(edges::convex(&boxed(25.0, 30.0, 0.0, 5.0), &S), hit(5.0, (20.0, 0.0), 1));
    // The body's corner (18, 9) lies 1 below the top; vertex 1 is no deeper inside the body.
    assert_eq!(edges::convex(&boxed(18.0, 22.0, 9.0, 12.0), &S), hit(-1.0, (18.0, 10.0), 0));
    // All vertices lie inside; vertex 1 is the deepest.
    assert_eq!(edges::convex(&boxed(-5.0, 26.0, -5.0, 16.0), &S), hit(-6.0, (20.0, 10.0), 1));
    assert_eq!(edges::convex(&boxed(-5.0, 25.0, -5.0, 15.0), &S), hit(-5.0, (0.0, 10.0), 0));
}

#[test]
fn at_infinity_and_repeated_vertices() {
    let axis = [(3.0, 0.0), (20.0, 0.0), (0.0, 0.0)];
    assert_eq!(edges::point(&axis, [1.0, 2.0, 3.0]), hit(f64::INFINITY, (3.0, 0.0), 0));
    // Edge 0 has no length and is as near as edge 1.
    let repeated = [(20.0, 10.0), (20.0, 10.0), (20.0, 0.0), (0.0, 0.0), (0.0, 10.0)];
    assert_eq!(edges::point(&repeated, [14.0, 0.0, 23.0]), hit(5.0, (20.0, 10.0), 0));
    // Of vertices inside a box the last takes over, inside a convex body the first that is deepest.
    assert_eq!(edges::aabb(&repeated, [15.0, 25.0, 5.0, 15.0]), hit(-5.0, (20.0, 10.0), 1));
    assert_eq!(edges::convex(&[(15.0, 11.0), (25.0, 11.0), (20.0, 1.0)], &repeated), hit(-1.0, (20.0, 10.0), 0));
}

/// A judge that is wrong about the edge: it is told the query, the section and the right hit.
type Wrong = fn(&Query, &[Pair], Hit) -> u32;

const WRONG: [(&str, &[Kind], Wrong); 9] = [
    ("edge 0 always", &[Kind::Point, Kind::Sphere, Kind::Box, Kind::Convex, Kind::SetCylinder], |_, _, _| 0),
    ("the last of equal edges", &[Kind::Point, Kind::Sphere, Kind::Box, Kind::Convex], last_of_equal),
    ("the first edge that the witness lies on", &[Kind::Box, Kind::Convex, Kind::SetCylinder], first_under_witness),
    ("the edge that ends at the vertex", &[Kind::Box, Kind::Convex], ends_at_vertex),
    ("the first vertex inside", &[Kind::Box], first_inside),
    ("the gap's edge, where a probe took over", &[Kind::Box], edge_of_gap),
    ("the probe's edge, where a vertex took over", &[Kind::Box], edge_under_vertex),
    ("the convex body's edge", &[Kind::Convex], edge_of_convex),
    ("the sample's edge, where a box took over", &[Kind::SetCylinder], edge_of_sample),
];

fn section(query: &Query) -> Vec<Pair> {
    vertices(query.lists.last().unwrap())
}

/// How far an edge of the section is from the body: none where it does not count.
fn away(query: &Query, edge: (Pair, Pair)) -> Option<f64> {
    match query.kind {
        Kind::Box => Some(edges::beside_box(edge, query.array()).0),
        Kind::Convex => {
            let convex = vertices(&query.lists[0]);
            edges(&convex).map(|(_, other)| probe::two_segments(edge, other).0).min_by(f64::total_cmp)
        }
        _ => {
            let [x, y, z] = query.array();
            let counts = edge.0.1.abs() > 1e-9 || edge.1.1.abs() > 1e-9;
            counts.then(|| probe::closest_point((z, exact_hypot::hypot(x, y)), edge).0)
        }
    }
}

/// Bodies that stand clear, and points anywhere.
fn last_of_equal(query: &Query, section: &[Pair], right: Hit) -> u32 {
    if matches!(query.kind, Kind::Box | Kind::Convex) && right.distance < 0.0 {
        return right.edge;
    }
    let nearest = edges(section).filter_map(|(_, edge)| away(query, edge)).min_by(f64::total_cmp);
    let equal = edges(section).filter(|&(_, edge)| nearest.is_some() && away(query, edge) == nearest);
    equal.last().map_or(right.edge, |(k, _)| k)
}

fn first_under_witness(_: &Query, section: &[Pair], right: Hit) -> u32 {
    let on = |edge| probe::closest_point(right.witness, edge).0 == 0.0;
    edges(section).find(|&(_, edge)| on(edge)).map_or(right.edge, |(k, _)| k)
}

/// Whether the witness is a vertex that was found inside the body.
fn vertex_took_over(query: &Query, section: &[Pair], right: Hit) -> bool {
    let vertex = section[right.edge as usize];
    match query.kind {
        Kind::Box => last_inside(section, query.array()).is_some(),
        _ => right.distance < 0.0 && probe::convex_distance(&vertices(&query.lists[0]), vertex) == right.distance,
    }
}

fn ends_at_vertex(query: &Query, section: &[Pair], right: Hit) -> u32 {
    let count = section.len() as u32;
    if vertex_took_over(query, section, right) { (right.edge + count - 1) % count } else { right.edge }
}

/// The witness does not tell it where the vertex comes again.
fn first_inside(query: &Query, section: &[Pair], right: Hit) -> u32 {
    let took_over = vertex_took_over(query, section, right);
    let first = section.iter().zip(0..).find(|&(vertex, _)| took_over && *vertex == right.witness);
    first.map_or(right.edge, |(_, k)| k)
}

fn edge_of_gap(query: &Query, section: &[Pair], right: Hit) -> u32 {
    if vertex_took_over(query, section, right) { right.edge } else { box_gap(section, query.array()).edge }
}

fn edge_under_vertex(query: &Query, section: &[Pair], right: Hit) -> u32 {
    let [z0, z1, r0, r1] = query.array();
    let probes = [((z0 + z1) * 0.5, (r0 + r1) * 0.5), (z0, r0), (z1, r0), (z1, r1), (z0, r1)];
    let lowest = probes.map(|probe| edges::point_by_steps(section, probe)).into_iter().filter(|hit| hit.distance < 0.0);
    let lowest = lowest.min_by(|a, b| a.distance.total_cmp(&b.distance));
    if vertex_took_over(query, section, right) { lowest.map_or(right.edge, |hit| hit.edge) } else { right.edge }
}

fn edge_of_convex(query: &Query, section: &[Pair], right: Hit) -> u32 {
    let convex = vertices(&query.lists[0]);
    let away = |other| edges(section).map(|(_, edge)| probe::two_segments(edge, other).0).min_by(f64::total_cmp);
    let nearest = edges(&convex).filter_map(|(_, other)| away(other)).min_by(f64::total_cmp);
    let first = edges(&convex).find(|&(_, other)| away(other) == nearest);
    if right.distance < 0.0 { right.edge } else { first.map_or(right.edge, |(i, _)| i) }
}

/// Of a cylinder that is walked.
fn edge_of_sample(query: &Query, section: &[Pair], right: Hit) -> u32 {
    let body @ [ax, ay, az, bx, by, bz, radius] = query.array();
    let band = match table::axis(body) {
        Some(Axis::AlongX) if radius > 1e-15 => Band::new(body),
        Some(Axis::AlongY) if radius > 1e-15 => Band::new([ay, ax, az, by, bx, bz, radius]),
        _ => return right.edge,
    };
    walk::sampled(section, &band, query.settings().intervals).edge
}

/// Every wrong judge is found out by at least one in a hundred of the queries that are accepted.
#[test]
fn generated_queries_find_wrong_judges() {
    for kind in [Kind::Point, Kind::Sphere, Kind::Box, Kind::Convex, Kind::SetCylinder] {
        let wrong = || WRONG.iter().filter(|(_, kinds, _)| kinds.contains(&kind));
        let mut random = Random::new(9, kind as u64);
        let (mut accepted, mut found) = (0, vec![0; wrong().count()]);
        for _ in 0..4000 {
            let query = generate::query(&mut random, kind);
            let (Answer::Hit(right) | Answer::Walked(right, _)) = expected(&query) else { continue };
            accepted += 1;
            for (found, (_, _, judge)) in found.iter_mut().zip(wrong()) {
                *found += u32::from(judge(&query, &section(&query), right) != right.edge);
            }
        }
        for (found, (name, _, _)) in found.into_iter().zip(wrong()) {
            println!("{kind:?}: {name}: {found} of {accepted}");
            assert!(100 * found >= accepted, "{kind:?}: {name}: only {found} of {accepted}");
        }
    }
}
