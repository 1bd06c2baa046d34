//! Points, spheres and walks from a seed, with what the library says of them.

use super::place::{Place, Vertex, edge};
use super::{points, walks};
use crate::generate::{self, Style};
use crate::judge::vertices;
use crate::query::{Kind, Query, numbers_of};
use crate::random::Random;
use jorghipa::{Cylinder, Point, Sphere, bare};
use table::Settings;

/// A query of a point or of a sphere's verdict, and what the library says of it.
pub struct Drawn {
    pub query: Query,
    pub section: Vec<Vertex>,
    pub distance: f64,
    pub edge: usize,
    pub clear: bool,
}

fn limited(x: f64) -> f64 {
    x.clamp(-table::LIMIT, table::LIMIT)
}

/// Onto a point of an edge, a few neighbours off or not far beside it, at any angle.
fn beside(random: &mut Random, section: &[Vertex], numbers: &mut [f64]) {
    let (a, b) = edge(section, random.below(section.len()));
    let t = random.between(0.0, 1.0);
    let off = random.pick(&[0.0, 0.0, 1e-9, 1e-3, 1.0]) * random.between(-1.0, 1.0);
    let (z, r) = (a.0 + (b.0 - a.0) * t, (a.1 + (b.1 - a.1) * t + off).abs());
    let (z, r) = (random.near(z), random.near(r));
    let angle = random.between(0.0, 6.3);
    let (x, y) = if random.chance(1, 4) { (r, 0.0) } else { (r * angle.cos(), r * angle.sin()) };
    numbers[..3].copy_from_slice(&[limited(x), limited(y), limited(z)]);
}

/// A point or a sphere as `compare` draws them, half of the large ones brought within a metre, one in three moved onto an edge;
/// none where it is refused.
pub fn point(random: &mut Random) -> Option<Drawn> {
    let kind = random.pick(&[Kind::Point, Kind::VerdictSphere]);
    let mut query = generate::query(random, kind);
    if query.lists[0].iter().any(|x| x.abs() > 1024.0) && random.chance(1, 2) {
        query.lists[0].iter_mut().chain(&mut query.numbers).for_each(|x| *x /= 1024.0);
    }
    let section = vertices(&query.lists[0]);
    if random.chance(1, 3) && section.len() > 2 {
        beside(random, &section, &mut query.numbers);
    }
    let list = query.lists[0].clone();
    let center = Point { x: query.numbers[0], y: query.numbers[1], z: query.numbers[2] };
    if kind == Kind::Point {
        let hit = bare::point(&list, center).ok()?;
        return Some(Drawn { query, section, distance: hit.distance, edge: hit.edge as usize, clear: false });
    }
    let ball = Sphere { center, radius: query.numbers[3] };
    let hit = bare::sphere(&list, ball).ok()?;
    if random.chance(3, 4) {
        let turning = random.near(limited(hit.distance + 1e-9));
        query.numbers[4] = random.pick(&[turning, turning, limited(hit.distance)]);
    }
    let clear = bare::verdict_sphere(&list, ball, query.numbers[4]) == Ok(false);
    Some(Drawn { query, section, distance: hit.distance, edge: hit.edge as usize, clear })
}

impl Drawn {
    pub fn told(&self) -> points::Told<'_> {
        let numbers = &self.query.numbers;
        let place = Place { x: numbers[0], y: numbers[1], z: numbers[2] };
        let (radius, clear) = (numbers.get(3).copied(), numbers.get(4).copied().filter(|_| self.clear));
        points::Told { section: &self.section, place, radius, distance: self.distance, edge: self.edge, clear }
    }
}

/// A walk, and what the library says of it.
pub struct Walk {
    pub query: Query,
    pub section: Vec<Vertex>,
    pub distance: f64,
    pub cut: bool,
}

const STYLES: [Style; 12] = [
    Style::Drawing,
    Style::Drawing,
    Style::Drawing,
    Style::Drawing,
    Style::Measured,
    Style::Measured,
    Style::Measured,
    Style::Measured,
    Style::Whole,
    Style::Limit,
    Style::Huge,
    Style::Mixed,
];

/// Edges that lie level, or run straight out, are tilted by very little: box distance is least exact there.
fn tilted(random: &mut Random, section: &mut [Vertex]) {
    for i in 0..section.len() {
        let (a, b) = edge(section, i);
        let slope = random.sign(1.0) * (-random.between(18.0, 34.0)).exp2();
        if a.1 == b.1 && a.1 > 0.0 {
            section[i].1 = limited(a.1 + (b.0 - a.0) * slope).max(0.0);
        } else if a.0 == b.0 {
            section[i].0 = limited(a.0 + (b.1 - a.1) * slope);
        }
    }
}

/// A cylinder along X whose side, end or middle is at a point of an edge, a gap away.
fn bar(random: &mut Random, section: &[Vertex], radius: f64) -> [f64; 6] {
    let (a, b) = edge(section, random.below(section.len()));
    let t = random.pick(&[0.0, 0.25, 0.5, 0.9, 1.0]);
    let (z, r) = (a.0 + (b.0 - a.0) * t, a.1 + (b.1 - a.1) * t);
    let gap = random.pick(&[0.0, 0.01, 0.5, 1.0, 5.0]) * random.between(0.0, 1.0);
    let (long, part) = (random.pick(&[0.1, 5.0, 30.0, 300.0]), random.between(-1.5, 1.5));
    let ((x0, x1), y, z) = match random.below(5) {
        0 | 1 => ((-long * random.between(0.0, 1.0), long), r + gap + radius, z + part * radius),
        2 => {
            let side = random.pick(&[0.0, part]);
            ((r + gap, r + gap + long), side * radius, z + random.between(-1.0, 1.0) * radius)
        }
        3 => ((part * long, part * long + long), random.between(-1.0, 1.0) * r, z + random.sign(radius + gap)),
        _ => ((part * r, part * r + long), random.between(-1.5, 1.5) * r, z + part * radius),
    };
    let lean = random.pick(&[0.0, 0.0, 0.0, 0.0, 1e-9]) * long;
    [x0, y, z, x1, y + lean, z]
}

/// A nearly flat crown, and the end of a wide bar over it: box distance is least exact there.
fn crowned(random: &mut Random) -> (Vec<Vertex>, f64, [f64; 6]) {
    let scale = random.pick(&[1.0, 1.0, 512.0]);
    let (long, part) = (scale * random.between(10.0, 1000.0), random.between(0.1, 0.9));
    let r = scale * random.between(1.0, 900.0);
    let top = r + long * part * (-random.between(20.0, 30.0)).exp2();
    let section = vec![(0.0, r), (long * part, top), (long, r), (long, 0.0), (0.0, 0.0)];
    let (radius, x) = (long * random.between(0.2, 0.9), r + scale * random.between(0.0, 100.0));
    let z = long * random.between(0.2, 0.8);
    (section, radius, [x, 0.0, z, x + 30.0, 0.0, z])
}

fn settings(random: &mut Random) -> Settings {
    let any = 10f64.powf(random.between(-9.0, 0.0)).clamp(1e-9, 1.0);
    let tolerance = random.pick(&[any, any, any, 1.0, 0.1, 0.01, 1e-3, 1e-9]);
    let most = match random.below(100) {
        0 => 8192,
        1..=20 => random.whole(1, 4) as u32,
        _ => random.whole(1, 256) as u32,
    };
    let intervals = random.pick(&[1, 1, 2, 3, 4, 8, 16]);
    Settings { tolerance, most, intervals }
}

/// A section, a radius and the ends of a cylinder along X.
fn across(random: &mut Random) -> (Vec<Vertex>, f64, [f64; 6]) {
    let style = random.pick(&STYLES);
    let mut section = generate::section(random, style, 12);
    if random.chance(1, 3) {
        tilted(random, &mut section);
    }
    let radius = match random.below(6) {
        0 => random.between(0.0, 1.0),
        1 => random.whole(1, 80) as f64 / 8.0,
        2 | 3 => random.between(0.0, 30.0),
        4 => section[0].0.abs() * random.between(0.0, 1.0),
        _ => random.size(-4, 2),
    };
    let ends = bar(random, &section, radius);
    (section, radius, ends)
}

/// A cylinder across the spindle, with settings; none where it is refused, or measured as one box.
pub fn walk(random: &mut Random) -> Option<Walk> {
    let (section, radius, mut ends) = if random.chance(1, 10) { crowned(random) } else { across(random) };
    if random.chance(1, 2) {
        ends.swap(0, 1);
        ends.swap(3, 4);
    }
    let [ax, ay, az, bx, by, bz] = ends.map(limited);
    let settings = settings(random);
    let numbers = [[ax, ay, az, bx, by, bz, radius].as_slice(), &numbers_of(settings)].concat();
    let query = Query::new(Kind::SetCylinder, &[generate::list(&section)], &numbers);
    let (a, b) = (Point { x: ax, y: ay, z: az }, Point { x: bx, y: by, z: bz });
    let Settings { tolerance, most, intervals } = settings;
    let settings = jorghipa::Settings { tolerance, most, intervals };
    let hit = bare::cylinder(&query.lists[0], Cylinder { a, b, radius }, settings).ok()?;
    (hit.waiting > 0).then_some(Walk { query, section, distance: hit.hit.distance, cut: hit.cut })
}

impl Walk {
    pub fn told(&self) -> walks::Told<'_> {
        let (body, settings) = (self.query.array(), self.query.settings());
        walks::Told { section: &self.section, body, settings, distance: self.distance, cut: self.cut }
    }
}
