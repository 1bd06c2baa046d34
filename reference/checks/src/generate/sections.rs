//! Sections: lathe profiles, random and self-crossing polygons, with duplicate and axis vertices.

use super::{SMALL, Style};
use crate::random::Random;

type Vertex = (f64, f64);

/// The numbers of a list of vertices.
pub fn list(vertices: &[Vertex]) -> Vec<f64> {
    vertices.iter().flat_map(|vertex| [vertex.0, vertex.1]).collect()
}

/// How many vertices: few as a rule, now and then up to the most.
pub fn count(random: &mut Random, least: usize, most: usize) -> usize {
    let top = match random.below(100) {
        0 => most,
        1..=6 => 32,
        7..=30 => 12,
        _ => 6,
    };
    least + random.below(top.min(most) - least + 1)
}

/// A section as given to a query, of at most `most` vertices; 6 lets its radii pass.
pub fn section(random: &mut Random, style: Style, most: usize) -> Vec<Vertex> {
    let mut vertices = polygon(random, style, most);
    lift(random, &mut vertices);
    vertices
}

/// A radius below -1e-9 on the other side of the spindle, or from -1e-9 up to 0.
fn lift(random: &mut Random, vertices: &mut [Vertex]) {
    for vertex in vertices.iter_mut().filter(|vertex| table::below_axis(vertex.1)) {
        let between = random.between(-1e-9, 0.0);
        vertex.1 = random.pick(&[-vertex.1, -vertex.1, -1e-9, (-1e-9f64).next_up(), between, -1e-12, -5e-324, -0.0]);
    }
}

/// Any polygon of at most `most` vertices, also below the spindle.
pub fn polygon(random: &mut Random, style: Style, most: usize) -> Vec<Vertex> {
    let mut vertices = if random.chance(5, 8) { turned(random, style, most) } else { scattered(random, style, most) };
    if random.chance(1, 4) {
        spice(random, style, &mut vertices);
    }
    if matches!(style, Style::Whole) && random.chance(1, 2) {
        again(random, &mut vertices);
    }
    rotated(random, vertices)
}

/// Another first vertex, and perhaps the other way round.
pub fn rotated(random: &mut Random, mut vertices: Vec<Vertex>) -> Vec<Vertex> {
    if random.chance(1, 2) {
        vertices.reverse();
    }
    let start = random.below(vertices.len());
    vertices.rotate_left(start);
    vertices
}

/// Steps, tapers and faces along z.
fn profile(random: &mut Random, style: Style, count: usize) -> Vec<Vertex> {
    let mut z: Vec<f64> = (0..count).map(|_| style.coordinate(random)).collect();
    z.sort_by(f64::total_cmp);
    let mut vertices: Vec<Vertex> = Vec::new();
    for z in z {
        let last = vertices.last().copied();
        match (random.below(3), last) {
            (0, Some(last)) => vertices.push((z, last.1)),
            (1, Some(last)) => vertices.push((last.0, style.radius(random))),
            _ => vertices.push((z, style.radius(random))),
        }
    }
    vertices
}

/// A profile closed along the spindle.
fn turned(random: &mut Random, style: Style, most: usize) -> Vec<Vertex> {
    let count = count(random, 3, most).max(4) - 2;
    let mut vertices = profile(random, style, count);
    let (first, last) = (vertices[0].0, vertices[vertices.len() - 1].0);
    vertices.extend([(last, 0.0), (first, 0.0)]);
    vertices
}

/// Any vertices; most such polygons cross themselves.
fn scattered(random: &mut Random, style: Style, most: usize) -> Vec<Vertex> {
    let count = count(random, 3, most);
    (0..count).map(|_| (style.coordinate(random), style.radius(random))).collect()
}

/// Duplicates, axis vertices, small radii, and edges that lie level or run back.
fn spice(random: &mut Random, style: Style, vertices: &mut [Vertex]) {
    for _ in 0..1 + random.below(3) {
        let i = random.below(vertices.len());
        let other = vertices[random.below(vertices.len())];
        let small = random.pick(&SMALL);
        let signed = random.sign(small);
        let small = random.near(signed);
        vertices[i] = match random.below(9) {
            0 => other,
            1 => (other.0 + small, other.1),
            2 => (other.0, other.1 + small),
            3 => (vertices[i].0, small),
            4 => (vertices[i].0, 0.0),
            5 => (other.0, -other.1),
            6 => (small, other.1),
            7 => (style.coordinate(random), other.1),
            _ => (other.0, style.radius(random)),
        };
        // Neither limit may be passed.
        vertices[i].0 = vertices[i].0.clamp(-table::LIMIT, table::LIMIT);
        vertices[i].1 = vertices[i].1.clamp(-table::LIMIT, table::LIMIT);
    }
}

/// Vertices that come again, beside the first or apart, and edges there and back.
fn again(random: &mut Random, vertices: &mut [Vertex]) {
    for _ in 0..1 + vertices.len() / 4 {
        let (i, count) = (random.below(vertices.len()), vertices.len());
        let other = random.pick(&[1, 1, 2, 3]);
        vertices[(i + other) % count] = vertices[i];
    }
}

/// Points for `build_section`: 2 to 254, radii not below -1e-9, some of them repeated.
pub fn points(random: &mut Random, style: Style) -> Vec<f64> {
    let count = count(random, 2, 254);
    let mut points = profile(random, style, count);
    repeat(random, &mut points);
    lift(random, &mut points);
    near_axis(random, &mut points);
    list(&points)
}

/// Vertices for `build_polygon`: radii not below -1e-9, some of them repeated, also the first at the end.
pub fn polygon_points(random: &mut Random, style: Style) -> Vec<f64> {
    let mut vertices = scattered(random, style, 256);
    repeat(random, &mut vertices);
    if random.chance(1, 3) {
        let last = vertices.len() - 1;
        vertices[last] = moved(random, vertices[0]);
    }
    lift(random, &mut vertices);
    near_axis(random, &mut vertices);
    list(&vertices)
}

/// In one list of eight, some points repeat the z of the one before, or the last that of the first, and both radii lie from
/// -1e-9 up to 0, or at 0: raised, they are the same point.
fn near_axis(random: &mut Random, points: &mut [Vertex]) {
    if !random.chance(1, 8) {
        return;
    }
    for i in 0..points.len() {
        let next = (i + 1) % points.len();
        if random.chance(1, 3) {
            let mut radius = || random.pick(&[-1e-9, -5e-10, -2e-12, -1e-12, -5e-13, -5e-324, -0.0, 0.0, 5e-13, 2e-12]);
            (points[i].1, points[next].1) = (radius(), radius());
            points[next].0 = points[i].0;
        }
    }
}

fn repeat(random: &mut Random, points: &mut [Vertex]) {
    for i in 1..points.len() {
        if random.chance(1, 6) {
            points[i] = moved(random, points[i - 1]);
        }
    }
}

/// The same point, or one about 1e-12 away.
fn moved(random: &mut Random, point: Vertex) -> Vertex {
    let mut shift = || {
        let gap = random.pick(&[0.0, 0.0, 1e-13, 5e-13, 1e-12, 1.5e-12]);
        let shift = random.near(gap);
        random.sign(shift)
    };
    let (dz, dr) = (shift(), shift());
    ((point.0 + dz).clamp(-table::LIMIT, table::LIMIT), (point.1 + dr).clamp(-table::LIMIT, table::LIMIT))
}
