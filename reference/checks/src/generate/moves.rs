//! Moves: a body drawn beside a section, then led away from there, past it, along an edge, or to the limit and over it.

use super::{STYLES, Style, assemblies, list, section};
use crate::moves::Move;
use crate::random::Random;
use table::{FINEST, LIMIT, Settings};

type Vertex = (f64, f64);

/// An offset of ordinary or any other size.
fn away(random: &mut Random) -> [f64; 3] {
    let sizes = [0.0, -0.0, 1e-9, 0.1, 1.0, 3.0, 25.0, 25.0, 100.0, 1e5, LIMIT];
    [(); 3].map(|()| {
        let size = random.pick(&sizes) * random.pick(&[1.0, 1.0, 0.5, 0.3]);
        random.sign(size)
    })
}

/// From there to an offset that takes the body's first coordinate to the limit, just over it, or just short of it.
fn to_limit(random: &mut Random, first: f64) -> f64 {
    let edge = random.sign(LIMIT);
    let close = random.near(edge);
    (random.pick(&[edge, close, close, 1.5 * edge]) - first).clamp(-LIMIT, LIMIT)
}

/// Start and end offset.
fn offsets(random: &mut Random, section: &[Vertex], first: f64) -> ([f64; 3], [f64; 3]) {
    let i = random.below(section.len());
    let (a, b) = (section[i], section[(i + 1) % section.len()]);
    let along = [b.1 - a.1, 0.0, b.0 - a.0].map(|x| x.clamp(-LIMIT, LIMIT));
    let still = away(random);
    match random.below(10) {
        0 => (still, still),
        1 => ([0.0; 3], along),
        2 => (along.map(|x| -x), along),
        3 => (still, still.map(|x| -x)),
        4 => ([0.0; 3], [to_limit(random, first), 0.0, to_limit(random, first)]),
        5 => ([to_limit(random, first); 3], [0.0; 3]),
        6 => ([0.0; 3], [0.0, 0.0, random.between(-100.0, 100.0)]),
        7 => ([random.between(-100.0, 100.0), 0.0, 0.0], [0.0; 3]),
        _ => (still, away(random)),
    }
}

fn settings(random: &mut Random) -> Settings {
    let coarse = Settings { tolerance: 0.01, most: 64, intervals: 4 };
    let coarsest = Settings { tolerance: 1.0, most: random.pick(&[1, 2, 9]), intervals: random.pick(&[1, 3, 64]) };
    random.pick(&[FINEST, coarse, coarse, coarsest])
}

/// Of any kind, with at most this many steps where it is not refused for their number. A cylinder that is walked at the finest
/// settings takes long, and gets few.
fn drawn(random: &mut Random, most: u32) -> Move {
    let style =
        if random.chance(2, 3) { random.pick(&[Style::Drawing, Style::Measured]) } else { random.pick(&STYLES) };
    let vertices = section(random, style, 12);
    let body = assemblies::body(random, style, &vertices);
    let (start, end) = offsets(random, &vertices, body.numbers()[0]);
    let counts =
        [1, 1, 2, 2, 3, 3, 4, 7, 16, 100, 4096, 0, 4097, u32::MAX].map(|n| if n > 4096 { n } else { n.min(most) });
    let (steps, settings) = (random.pick(&counts), settings(random));
    let settings = if settings == FINEST && steps > 4 { Settings { most: 64, ..FINEST } } else { settings };
    let clearance = random.pick(&[0.0, 0.0, 0.5, 1e-9, 2.0, 25.0, -1e-8, -1.0, LIMIT]);
    Move { section: list(&vertices), body, clearance, start, end, steps, settings }
}

/// Then one in eight is spoilt in one place or in several.
fn spoilt(random: &mut Random, mut given: Move) -> Move {
    for _ in 0..random.pick(&[0, 0, 0, 0, 0, 0, 1, 2]) {
        let bad = random.pick(&[f64::NAN, f64::INFINITY, 2e6, -2e6, LIMIT.next_up()]);
        match random.below(7) {
            0 => assemblies::bad_section(random, &mut given.section),
            1 => given.clearance = bad,
            2 => given.body = assemblies::bad_body(random),
            3 => given.start[random.below(3)] = bad,
            4 => given.end[random.below(3)] = bad,
            5 => given.settings.tolerance = bad,
            _ => given.steps = random.pick(&[0, 4097]),
        }
    }
    given
}

pub fn any_move(random: &mut Random) -> Move {
    let most = if random.chance(1, 40) { 4096 } else { 16 };
    let given = drawn(random, most);
    spoilt(random, given)
}

/// Of few steps.
pub fn short_move(random: &mut Random) -> Move {
    let given = drawn(random, 7);
    spoilt(random, given)
}

/// A short cylinder that leans about as far as the axis test takes, led far out: rounding may tip it past the test.
pub fn tipping(random: &mut Random) -> Move {
    let mut given = drawn(random, 16);
    let length = 10f64.powf(random.between(-9.0, 0.0));
    let lean = length * random.pick(&[1e-9, 1e-8, 1.4e-4, 1.41421356e-4]);
    let (long, across) = random.pick(&[([0.0, 0.0, length], [lean, 0.0, 0.0]), ([length, 0.0, 0.0], [0.0, 0.0, lean])]);
    let a = [random.between(-20.0, 20.0), random.between(-20.0, 20.0), random.between(-20.0, 20.0)];
    let b = [0, 1, 2].map(|k| a[k] + long[k] + across[k]);
    given.body = table::Body::Cylinder([a[0], a[1], a[2], b[0], b[1], b[2], random.pick(&[0.0, 1e-16, 1.0])]);
    given.settings = Settings { tolerance: 0.01, most: 64, intervals: 4 };
    let far = [(); 3].map(|()| random.between(-1.0, 1.0) * 10f64.powf(random.between(0.0, 6.0)));
    (given.start, given.end) = if random.chance(1, 2) { ([0.0; 3], far) } else { (far, [0.0; 3]) };
    given
}
