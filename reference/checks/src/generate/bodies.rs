//! Bodies: aimed at a vertex or an edge of the section, with gaps of every size, or anywhere.

use super::{SMALL, Style, sections};
use crate::query::numbers_of;
use crate::random::Random;
use table::{FINEST, Settings};

type Vertex = (f64, f64);

fn limited(x: f64) -> f64 {
    x.clamp(-table::LIMIT, table::LIMIT)
}

/// A gap of either sign: none, about a threshold, or ordinary.
fn gap(random: &mut Random) -> f64 {
    let size = match random.below(4) {
        0 => 0.0,
        1 => {
            let small = random.pick(&SMALL);
            random.near(small)
        }
        2 => random.size(-12, -8),
        _ => random.pick(&[0.125, 0.5, 1.0, 2.0, 3.7, 10.0]),
    };
    random.sign(size)
}

/// A place at or beside the section: a vertex, a point of an edge, a middle, or anywhere; moved by a gap.
fn target(random: &mut Random, style: Style, section: &[Vertex]) -> Vertex {
    let i = random.below(section.len());
    let (a, b) = (section[i], section[(i + 1) % section.len()]);
    let along = random.pick(&[0.0, 0.25, 0.5, 0.75, 0.3, 0.999]);
    let (z, r) = match random.below(6) {
        0 => a,
        1 | 2 => (a.0 + (b.0 - a.0) * along, a.1 + (b.1 - a.1) * along),
        3 => {
            let c = section[random.below(section.len())];
            ((a.0 + b.0 + c.0) / 3.0, (a.1 + b.1 + c.1) / 3.0)
        }
        4 => (a.0 + (b.0 - a.0) * along, random.pick(&SMALL)),
        _ => (style.coordinate(random), style.radius(random)),
    };
    let (dz, dr) = (gap(random), gap(random));
    match random.below(4) {
        0 => (limited(z), limited(r)),
        1 => (limited(z + dz), limited(r)),
        2 => (limited(z), limited(r + dr)),
        _ => (limited(z + dz), limited(r + dr)),
    }
}

/// x and y at this radius.
fn spread(random: &mut Random, radius: f64) -> (f64, f64) {
    match random.below(5) {
        0 => (radius, 0.0),
        1 => (0.0, radius),
        2 => (-radius, -0.0),
        3 => (radius * 0.6, radius * 0.8),
        _ => {
            let angle = random.between(0.0, 6.3);
            (radius * angle.cos(), radius * angle.sin())
        }
    }
}

/// Makes the numbers of a body beside a section.
pub type Make = fn(&mut Random, Style, &[Vertex]) -> Vec<f64>;

pub fn point(random: &mut Random, style: Style, section: &[Vertex]) -> Vec<f64> {
    let (z, r) = target(random, style, section);
    let (x, y) = spread(random, r);
    vec![x, y, z]
}

pub fn sphere(random: &mut Random, style: Style, section: &[Vertex]) -> Vec<f64> {
    let mut numbers = point(random, style, section);
    numbers.push(size(random));
    numbers
}

/// z0, z1, r0, r1.
pub fn bounds(random: &mut Random, style: Style, section: &[Vertex]) -> Vec<f64> {
    aabb(random, style, section).to_vec()
}

/// A radius, a width or a height.
fn size(random: &mut Random) -> f64 {
    match random.below(4) {
        0 => random.pick(&SMALL).abs(),
        1 => random.size(-9, 1),
        2 => random.whole(0, 160) as f64 / 8.0,
        _ => random.between(0.0, 30.0),
    }
}

/// A box around all of the section, or nearly.
fn around(random: &mut Random, section: &[Vertex]) -> [f64; 4] {
    let ends = |of: fn(&Vertex) -> f64| {
        let all = section.iter().map(of);
        (all.clone().fold(f64::INFINITY, f64::min), all.fold(f64::NEG_INFINITY, f64::max))
    };
    let ((z0, z1), (r0, r1)) = (ends(|v| v.0), ends(|v| v.1));
    let (z0, z1) = ordered(z0 - gap(random), z1 + gap(random));
    let (r0, r1) = ordered(r0 - gap(random), r1 + gap(random));
    [z0, z1, r0, r1].map(limited)
}

/// A box with a side, a corner or its middle at the target, or one around the section.
fn aabb(random: &mut Random, style: Style, section: &[Vertex]) -> [f64; 4] {
    if random.chance(1, 10) {
        return around(random, section);
    }
    let (z, r) = target(random, style, section);
    let (z, r) = (z, if random.chance(1, 10) { r } else { r.abs() });
    let (w, h) = (size(random), size(random));
    let (z0, z1) = match random.below(4) {
        0 => (z, z + w),
        1 => (z - w, z),
        2 => (z - w, z + w),
        _ => ordered(z, section[random.below(section.len())].0 + gap(random)),
    };
    let (r0, r1) = match random.below(5) {
        0 => (r, r + h),
        1 => (r - h, r),
        2 => (r - h, r + h),
        3 => (0.0, r.max(0.0)),
        _ => ordered(r, section[random.below(section.len())].1 + gap(random)),
    };
    let r0 = if random.chance(1, 6) { r0 } else { r0.max(0.0) };
    [limited(z0), limited(z1), limited(r0), limited(r1.max(r0))]
}

fn ordered(a: f64, b: f64) -> (f64, f64) {
    if a <= b { (a, b) } else { (b, a) }
}

/// A body for the convex query: triangles, boxes and rounds, tiny ones, and any polygon, also a self-crossing one.
pub fn convex(random: &mut Random, style: Style, section: &[Vertex]) -> Vec<Vertex> {
    let (z, r) = target(random, style, section);
    let body = match random.below(6) {
        0 => {
            let [z0, z1, r0, r1] = aabb(random, style, section);
            vec![(z0, r0), (z1, r0), (z1, r1), (z0, r1)]
        }
        1 => {
            let size = size(random);
            vec![(z, r), (z + size, r), (z + size * 0.5, r + size)]
        }
        2 | 3 => {
            let (count, radius) = (sections::count(random, 3, 40), size(random));
            let angle = |i: usize| i as f64 / count as f64 * std::f64::consts::TAU;
            (0..count).map(|i| (z + radius * angle(i).cos(), r + radius * angle(i).sin())).collect()
        }
        4 => {
            let count = sections::count(random, 3, 12);
            (0..count).map(|_| (z + gap(random), r + gap(random))).collect()
        }
        _ => sections::polygon(random, style, 40),
    };
    let body = body.into_iter().map(|(z, r)| (limited(z), limited(r))).collect();
    sections::rotated(random, body)
}

/// Along or across the spindle, along X or Y, a little tilted in one direction or in both, or of no length. One in 200 is made
/// to be walked, which takes long.
pub fn cylinder(random: &mut Random, style: Style, section: &[Vertex]) -> Vec<f64> {
    let (z, r) = target(random, style, section);
    let (x, y) = spread(random, r);
    let length: f64 = random.pick(&[0.0, 1e-12, 1e-3, 1.0, 8.0, 30.0, 500.0]);
    let tilt = random.pick(&[0.0, 0.0, 0.0, 1e-9, 1e-8, 1.4e-4, 1.5e-4]);
    let (ends, radius) = match random.below(200) {
        0 => ([x, y, z, x + length.max(1e-3), y, z], size(random)),
        1..=40 => ([x, y, z, x + length, y, z + length * tilt], random.pick(&[0.0, 5e-324, 1e-16, 1e-15])),
        41..=60 => ([x, y, z, x + length, y + length * tilt, z], random.pick(&[0.0, 1e-15])),
        61..=80 => (leaning(random, [x, y, z], false), random.pick(&[0.0, 1e-15])),
        81..=110 => (leaning(random, [x, y, z], true), size(random)),
        _ => ([x, y, z, x + length * tilt, y, z + length], size(random)),
    };
    let mut ends = ends.map(limited);
    if random.chance(1, 2) {
        ends.rotate_left(3);
    }
    if random.chance(1, 2) {
        ends.swap(0, 1);
        ends.swap(3, 4);
    }
    ends.into_iter().chain([radius]).collect()
}

/// The ends of a cylinder from here, along the spindle or along X, that leans in both other directions, up to what the axis
/// test takes and a little more.
fn leaning(random: &mut Random, [x, y, z]: [f64; 3], along: bool) -> [f64; 6] {
    let length = random.pick(&[1.0, 30.0, 500.0, 1000.0]);
    let lean = random.pick(&[1e-6, 1e-4, 1.4e-4, 1.4142e-4]) * length;
    if along {
        let angle = random.between(0.0, 6.3);
        return [x, y, z, x + lean * angle.cos(), y + lean * angle.sin(), z + length];
    }
    let less = random.pick(&[1e-9, 5e-9, 1e-8]) * length;
    [x, y, z, x + length, y + random.sign(lean), z + random.sign(less)]
}

/// Middles on the axis and beside it, of both signs.
const MIDDLES: [f64; 10] = [0.0, 0.0, -0.0, -0.0, 5e-324, -5e-324, 1e-310, -1e-310, 1e-160, -1e-9];

/// The body with its middle moved onto the axis or beside it, in x or y or both, in one case of four each. `ends` are the
/// first numbers of its ends.
fn middled(random: &mut Random, mut body: Vec<f64>, ends: [usize; 2]) -> Vec<f64> {
    for axis in 0..2 {
        if random.chance(1, 4) {
            let [a, b] = ends.map(|end| end + axis);
            let (middle, half) = (random.pick(&MIDDLES), (body[b] - body[a]) * 0.5);
            (body[a], body[b]) = if half == 0.0 { (middle, middle) } else { (middle - half, middle + half) };
        }
    }
    body
}

pub fn lifted_point(random: &mut Random, style: Style, section: &[Vertex]) -> Vec<f64> {
    let body = point(random, style, section);
    middled(random, body, [0, 0])
}

pub fn lifted_sphere(random: &mut Random, style: Style, section: &[Vertex]) -> Vec<f64> {
    let body = sphere(random, style, section);
    middled(random, body, [0, 0])
}

pub fn lifted_cylinder(random: &mut Random, style: Style, section: &[Vertex]) -> Vec<f64> {
    let body = cylinder(random, style, section);
    middled(random, body, [0, 3])
}

/// A cylinder, one in eight of them made to be walked, then its settings: mostly coarse, and the edges of every range.
pub fn set_cylinder(random: &mut Random, style: Style, section: &[Vertex]) -> Vec<f64> {
    let mut body = cylinder(random, style, section);
    if random.chance(1, 8) {
        let (x, radius) = (random.pick(&[1e-3, 1.0, 8.0, 30.0, 500.0]), size(random));
        body.splice(3.., [body[0] + x, body[1], body[2], radius]);
        if random.chance(1, 2) {
            body.swap(0, 1);
            body.swap(3, 4);
        }
        body.iter_mut().for_each(|number| *number = limited(*number));
    }
    body.extend(numbers_of(settings(random)));
    body
}

fn settings(random: &mut Random) -> Settings {
    let tolerance = match random.below(6) {
        0 => random.pick(&[1e-9, 1e-9f64.next_up(), 1f64.next_down(), 1.0]),
        1..=3 => random.between(-6.0, 0.0).exp2().min(1.0),
        _ => 10f64.powf(random.between(-8.9, 0.0)),
    };
    let most = match random.below(6) {
        0 => random.pick(&[1, 2, 3, 8191, 8192]),
        1 => random.whole(1, 8192),
        _ => random.whole(1, 400),
    };
    let intervals = match random.below(4) {
        0 => random.pick(&[1, 2, 3, 15, 16, 17, 63, 64]),
        _ => random.whole(1, 64),
    };
    let settings = Settings { tolerance, most: most as u32, intervals: intervals as u32 };
    if random.chance(1, 40) { FINEST } else { settings }
}

/// Any f64 at all: every pattern, an ordinary number, or a small or special one.
pub fn any(random: &mut Random) -> f64 {
    match random.below(8) {
        0..=2 => f64::from_bits(random.bits()),
        3..=5 => random.between(-100.0, 100.0),
        6 => Style::Mixed.coordinate(random),
        _ => random.pick(&[0.0, -0.0, 5e-324, f64::MIN_POSITIVE, f64::MAX, f64::INFINITY, f64::NAN, 1.0, -1.0]),
    }
}

/// Two numbers for hypot, mostly of nearly the same size.
pub fn pair(random: &mut Random) -> [f64; 2] {
    let a = any(random);
    let b = if random.chance(1, 3) { any(random) } else { a * random.between(-2.0, 2.0) };
    let shift = if random.chance(1, 4) { 2f64.powi(-random.whole(20, 30) as i32) } else { 1.0 };
    if random.chance(1, 2) { [a, b * shift] } else { [b * shift, a] }
}
