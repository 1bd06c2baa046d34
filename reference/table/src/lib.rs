//! Document 01's table of refusals, numbers 1 to 11, with requests (iii)'s 17, (vi)'s 18, (ix)'s 19 and (xi)'s 6, and its builder
//! rules, written from their text.
//! Each call has one list of tests, written in the order in which it tests: the first that is true gives the number.

mod builder;
mod moves;
mod pairs;

pub use builder::{Built, build_polygon, build_section};
pub use moves::before_placing;
pub use pairs::{pair_box, pair_convex, pair_cylinder, pair_sphere};

/// Largest magnitude of a given coordinate, bound, radius or clearance.
pub const LIMIT: f64 = 1_048_576.0;

/// A number, and whether it applies.
pub type Test = (u32, bool);

/// The number of the first test that is true. The list comes in parts, one after the other.
pub fn first(parts: &[&[Test]]) -> Result<(), u32> {
    match parts.iter().copied().flatten().find(|(_, applies)| *applies) {
        Some(&(number, _)) => Err(number),
        None => Ok(()),
    }
}

/// 1, 2 and 3, each over all lists: numbers in pairs, with the fewest and the most pairs that a list may have.
fn shapes(lists: &[&[f64]], fewest: usize, most: usize) -> [Test; 3] {
    [
        (1, lists.iter().any(|list| list.len() % 2 == 1)),
        (2, lists.iter().any(|list| list.len() / 2 < fewest)),
        (3, lists.iter().any(|list| list.len() / 2 > most)),
    ]
}

/// 1, 2 and 3 of a query's lists.
fn vertices(lists: &[&[f64]]) -> [Test; 3] {
    shapes(lists, 3, 256)
}

/// 4 and 5, each over all numbers that are given.
fn numbers(given: &[&[f64]]) -> [Test; 2] {
    let any = |test: fn(&f64) -> bool| given.iter().copied().flatten().any(test);
    [(4, any(|x| !x.is_finite())), (5, any(|x| x.abs() > LIMIT))]
}

fn pairs(list: &[f64]) -> impl Iterator<Item = (f64, f64)> {
    list.chunks_exact(2).map(|pair| (pair[0], pair[1]))
}

/// Whether 6 meets a vertex of this radius.
pub fn below_axis(radius: f64) -> bool {
    radius < -1e-9
}

/// 6 of a section or of a builder's points; no convex body is tested for it.
fn radii(section: &[f64]) -> Test {
    (6, pairs(section).any(|(_, radius)| below_axis(radius)))
}

/// `more` holds the clearance of a verdict, or nothing, here and below.
pub fn point(section: &[f64], point: [f64; 3], more: &[f64]) -> Result<(), u32> {
    first(&[&vertices(&[section]), &numbers(&[section, &point, more]), &[radii(section)]])
}

/// The body is x, y, z, radius.
pub fn sphere(section: &[f64], body: [f64; 4], more: &[f64]) -> Result<(), u32> {
    first(&[&vertices(&[section]), &numbers(&[section, &body, more]), &[radii(section), (9, body[3] < 0.0)]])
}

/// The body is z0, z1, r0, r1.
pub fn aabb(section: &[f64], body: [f64; 4], more: &[f64]) -> Result<(), u32> {
    let [z0, z1, r0, r1] = body;
    let own = [radii(section), (10, z1 < z0 || r1 < r0)];
    first(&[&vertices(&[section]), &numbers(&[section, &body, more]), &own])
}

pub fn convex(convex: &[f64], section: &[f64], more: &[f64]) -> Result<(), u32> {
    first(&[&vertices(&[convex, section]), &numbers(&[convex, section, more]), &[radii(section)]])
}

/// Request (vi)'s settings of the walk.
#[derive(Clone, Copy, Debug, PartialEq)]
pub struct Settings {
    pub tolerance: f64,
    pub most: u32,
    pub intervals: u32,
}

/// Document 01's numbers, which a call keeps whose request does not name the settings.
pub const FINEST: Settings = Settings { tolerance: 1e-9, most: 8192, intervals: 16 };

/// 18: a setting out of range or not finite.
fn range(settings: Settings) -> Test {
    let Settings { tolerance, most, intervals } = settings;
    let within = (1e-9..=1.0).contains(&tolerance) && (1..=8192).contains(&most) && (1..=64).contains(&intervals);
    (18, !within)
}

/// The body is ax, ay, az, bx, by, bz, radius. 18 comes right after 5, which does not look at the settings.
pub fn cylinder(section: &[f64], body: [f64; 7], settings: Settings, more: &[f64]) -> Result<(), u32> {
    let own = [range(settings), radii(section), (9, body[6] < 0.0), (11, axis(body).is_none())];
    first(&[&vertices(&[section]), &numbers(&[section, &body, more]), &own])
}

/// A body of request (iii)'s assembly or (ix)'s move, its numbers as above.
#[derive(Clone, Copy, Debug)]
pub enum Body {
    Sphere([f64; 4]),
    Box([f64; 4]),
    Cylinder([f64; 7]),
}

impl Body {
    pub fn numbers(&self) -> &[f64] {
        match self {
            Body::Sphere(body) | Body::Box(body) => body,
            Body::Cylinder(body) => body,
        }
    }

    /// 9, 10 and 11, where they can apply.
    fn own(&self) -> Vec<Test> {
        match *self {
            Body::Sphere(body) => vec![(9, body[3] < 0.0)],
            Body::Box([z0, z1, r0, r1]) => vec![(10, z1 < z0 || r1 < r0)],
            Body::Cylinder(body) => vec![(9, body[6] < 0.0), (11, axis(body).is_none())],
        }
    }

    /// Whether it is well formed by itself.
    pub fn alone(&self) -> Result<(), u32> {
        first(&[&numbers(&[self.numbers()]), &self.own()])
    }
}

/// The numbers of section and clearance, then 17, then the first bad body's own.
pub fn assembly(section: &[f64], bodies: &[Body], clearance: f64) -> Result<(), u32> {
    let own = [radii(section), (17, bodies.len() > 64)];
    first(&[&vertices(&[section]), &numbers(&[section, &[clearance]]), &own])?;
    bodies.iter().try_for_each(Body::alone)
}

/// The directions that the axis test tells apart: along the spindle, and across it along X or, by request (iv), Y.
#[derive(Clone, Copy, Debug, PartialEq, Eq)]
pub enum Axis {
    Axial,
    AlongX,
    AlongY,
}

/// The direction is the difference of the ends times the reciprocal of its length; length 0 counts as along z.
pub fn axis(body: [f64; 7]) -> Option<Axis> {
    let [ax, ay, az, bx, by, bz, _] = body;
    let (x, y, z) = (bx - ax, by - ay, bz - az);
    let length = exact_hypot::hypot(exact_hypot::hypot(x, y), z);
    if length == 0.0 {
        return Some(Axis::Axial);
    }
    let [x, y, z] = [x, y, z].map(|component| (component * (1.0 / length)).abs());
    if z >= 1.0 - 1e-8 {
        return Some(Axis::Axial);
    }
    match z <= 1e-8 {
        true if x >= 1.0 - 1e-8 => Some(Axis::AlongX),
        true if y >= 1.0 - 1e-8 => Some(Axis::AlongY),
        _ => None,
    }
}

#[cfg(test)]
mod tests {
    use super::*;

    const S: [f64; 8] = [0.0, 10.0, 20.0, 10.0, 20.0, 0.0, 0.0, 0.0];

    #[test]
    fn examples_of_the_table() {
        let o = [0.0; 3];
        assert_eq!(point(&S, o, &[]), Ok(()));
        assert_eq!(point(&[0.0, 10.0, 20.0], o, &[]), Err(1));
        assert_eq!(point(&S[..4], o, &[]), Err(2));
        assert_eq!(point(&[], o, &[]), Err(2));
        assert_eq!(point(&[0.0; 514], o, &[]), Err(3));
        assert_eq!(point(&[0.0; 512], o, &[]), Ok(()));
        assert_eq!(point(&S, [0.0, 0.0, f64::NAN], &[]), Err(4));
        assert_eq!(point(&S, [0.0, 0.0, 1_048_577.0], &[]), Err(5));
        assert_eq!(point(&S, [0.0, 0.0, -1_048_576.0], &[]), Ok(()));
        assert_eq!(sphere(&S, [0.0, 0.0, 0.0, -1.0], &[]), Err(9));
        assert_eq!(sphere(&S, [0.0, 0.0, 0.0, -0.0], &[]), Ok(()));
        assert_eq!(aabb(&S, [5.0, 4.0, 0.0, 1.0], &[]), Err(10));
        assert_eq!(cylinder(&S, [0.0, 0.0, 0.0, 1.0, 0.0, 1.0, 1.0], FINEST, &[]), Err(11));
        assert_eq!(cylinder(&S, [0.0, 0.0, 0.0, 0.0, 0.0, 0.0, 1.0], FINEST, &[]), Ok(()));
        assert_eq!(cylinder(&S, [0.0, 0.0, 0.0, 1e-320, 0.0, 0.0, 1.0], FINEST, &[]), Err(11));
        assert_eq!(cylinder(&S, [0.0, 0.0, 0.0, 1e-320, 0.0, 5e-324, 1.0], FINEST, &[]), Ok(()));
        assert_eq!(cylinder(&S, [0.0, 0.0, 0.0, 0.0, 1.0, 0.0, 1.0], FINEST, &[]), Ok(()));
        assert_eq!(cylinder(&S, [0.0, 0.0, 0.0, 1.0, 1.0, 0.0, 1.0], FINEST, &[]), Err(11));
        assert_eq!(cylinder(&S, [0.0, 0.0, 0.0, 0.0, 1e-320, 0.0, 1.0], FINEST, &[]), Err(11));
    }

    #[test]
    fn the_first_of_ascending_numbers_is_the_lowest() {
        for pattern in 0..1 << 11 {
            let tests: Vec<Test> = (1..=11).map(|number| (number, pattern >> (number - 1) & 1 == 1)).collect();
            let lowest = tests.iter().filter(|test| test.1).map(|test| test.0).min();
            for part in 0..=tests.len() {
                let (front, rest) = tests.split_at(part);
                assert_eq!(first(&[front, rest]).err(), lowest);
            }
        }
        // Where they do not ascend, the order decides.
        assert_eq!(first(&[&[(5, false), (18, true), (6, true)]]), Err(18));
    }

    #[test]
    fn settings_between_5_and_9() {
        let along = [15.0, 0.0, 0.0, 15.0, 0.0, 30.0, 2.0];
        let bad = Settings { most: 0, ..FINEST };
        let taken = |tolerance, most, intervals| cylinder(&S, along, Settings { tolerance, most, intervals }, &[]);
        assert_eq!(taken(1e-9, 1, 1), Ok(()));
        assert_eq!(taken(1.0, 8192, 64), Ok(()));
        for tolerance in [1e-9f64.next_down(), 1f64.next_up(), 0.0, -0.0, 5e-324, -1.0, f64::INFINITY, f64::NAN] {
            assert_eq!(taken(tolerance, 8192, 16), Err(18));
        }
        for (most, intervals) in [(0, 16), (8193, 16), (u32::MAX, 16), (8192, 0), (8192, 65), (8192, u32::MAX)] {
            assert_eq!(taken(1e-9, most, intervals), Err(18));
        }
        let with = |i: usize, x: f64| {
            let mut body = [0.0, 0.0, 0.0, 1.0, 0.0, 1.0, -1.0];
            body[i] = x;
            cylinder(&S, body, bad, &[])
        };
        assert_eq!((with(0, 0.0), with(0, 2e6), with(0, f64::NAN)), (Err(18), Err(5), Err(4)));
        assert_eq!(cylinder(&S, along, bad, &[2e6]), Err(5));
        assert_eq!(cylinder(&S[..4], along, bad, &[]), Err(2));
    }

    #[test]
    fn radii_below_the_axis() {
        let with = |radius| [0.0, 10.0, 20.0, 10.0, 20.0, radius, 0.0, 0.0];
        let (o, low) = ([0.0; 3], with(-1.0));
        for taken in [-1e-9, (-1e-9f64).next_up(), -5e-324, -0.0] {
            assert_eq!(point(&with(taken), o, &[]), Ok(()));
        }
        for refused in [(-1e-9f64).next_down(), -1e-8, -1.0, -1_048_576.0] {
            assert_eq!(point(&with(refused), o, &[]), Err(6));
        }
        // A convex body is not met, nor is a box.
        assert_eq!(convex(&low, &S, &[]), Ok(()));
        assert_eq!(convex(&S, &low, &[]), Err(6));
        assert_eq!(aabb(&S, [5.0, 6.0, -3.0, -2.0], &[]), Ok(()));
        // After 4 and 5 of the body and of the clearance, and after 18; before 9, 10 and 11.
        assert_eq!(point(&low, [f64::NAN, 0.0, 0.0], &[]), Err(4));
        assert_eq!(convex(&[2e6; 6], &low, &[]), Err(5));
        assert_eq!(sphere(&low, [0.0, 0.0, 0.0, -1.0], &[]), Err(6));
        assert_eq!(sphere(&low, [0.0, 0.0, 0.0, -1.0], &[f64::NAN]), Err(4));
        assert_eq!(aabb(&low, [5.0, 4.0, 0.0, 5.0], &[]), Err(6));
        let skew = [0.0, 0.0, 0.0, 1.0, 0.0, 1.0, -1.0];
        assert_eq!(cylinder(&low, skew, FINEST, &[]), Err(6));
        assert_eq!(cylinder(&low, skew, Settings { most: 0, ..FINEST }, &[]), Err(18));
        assert_eq!(point(&low[..7], o, &[]), Err(1));
        assert_eq!(point(&with(-2e6), o, &[]), Err(5));
    }

    #[test]
    fn assemblies() {
        let low = [0.0, 10.0, 20.0, 10.0, 20.0, -1.0, 0.0, 0.0];
        let (ball, reversed) = (Body::Sphere([0.0, 0.0, 10.0, 1.0]), Body::Box([5.0, 4.0, 0.0, 1.0]));
        let (thin, broken) = (Body::Sphere([0.0, 0.0, 0.0, -1.0]), Body::Box([f64::NAN, 0.0, 0.0, 0.0]));
        let skew = Body::Cylinder([0.0, 0.0, 0.0, 1.0, 0.0, 1.0, 1.0]);
        assert_eq!(assembly(&S, &[], 0.0), Ok(()));
        assert_eq!(assembly(&S, &[ball; 64], 0.0), Ok(()));
        assert_eq!(assembly(&S, &[broken; 65], 0.0), Err(17));
        assert_eq!(assembly(&low, &[broken; 65], 0.0), Err(6));
        assert_eq!(assembly(&low, &[broken; 65], f64::NAN), Err(4));
        // The first in the list, not the lowest over all.
        assert_eq!(assembly(&S, &[ball, skew, broken], 0.0), Err(11));
        assert_eq!(assembly(&S, &[ball, reversed, thin], 0.0), Err(10));
        assert_eq!(assembly(&S, &[thin, reversed], 0.0), Err(9));
        assert_eq!(assembly(&S, &[Body::Sphere([2e6, 0.0, 0.0, -1.0])], 0.0), Err(5));
    }

    #[test]
    fn the_lowest_over_everything() {
        assert_eq!(convex(&S[..4], &S[..3], &[]), Err(1));
        assert_eq!(convex(&[0.0; 514], &S[..4], &[]), Err(2));
        assert_eq!(sphere(&S, [0.0, 0.0, 0.0, -2e6], &[]), Err(5));
        assert_eq!(sphere(&S, [2e6, 0.0, 0.0, -2.0], &[f64::NAN]), Err(4));
        assert_eq!(aabb(&S[..4], [5.0, 4.0, 0.0, f64::NAN], &[]), Err(2));
    }
}
