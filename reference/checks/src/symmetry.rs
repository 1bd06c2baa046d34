//! Request (xiv): a cylinder with its ends swapped, mirrored in x or in y, or turned by half a turn has the same answer.

use crate::generate;
use crate::query::Kind;
use crate::random::Random;
use jorghipa::{Cylinder, CylinderHit, Point, Refusal, Settings};

/// A section, a cylinder beside it, and the settings of its walk.
#[derive(Clone, Debug)]
pub struct Case {
    pub section: Vec<f64>,
    pub cylinder: Cylinder,
    pub settings: Settings,
}

pub type Move = fn(Cylinder) -> Cylinder;

/// Each move, and whether a zero may change its sign.
pub const MOVES: [(&str, Move, bool); 5] = [
    ("ends swapped", swapped, true),
    ("mirrored in x", |c| both(c, |p| Point { x: -p.x, ..p }), false),
    ("mirrored in y", |c| both(c, |p| Point { y: -p.y, ..p }), false),
    ("half a turn", |c| both(c, |p| Point { x: -p.x, y: -p.y, ..p }), false),
    ("ends swapped and half a turn", |c| swapped(both(c, |p| Point { x: -p.x, y: -p.y, ..p })), true),
];

fn swapped(c: Cylinder) -> Cylinder {
    Cylinder { a: c.b, b: c.a, radius: c.radius }
}

fn both(c: Cylinder, end: fn(Point) -> Point) -> Cylinder {
    Cylinder { a: end(c.a), b: end(c.b), radius: c.radius }
}

/// A cylinder with its settings as `compare` draws them. One in four has zeros of either sign in some places, and so has a
/// vertex of its section; of those one in three is of no length, the signs of its zeros drawn for each end.
pub fn draw(random: &mut Random) -> Case {
    let mut query = generate::query(random, Kind::SetCylinder);
    let mut section = query.lists.pop().expect("a section");
    let mut numbers: [f64; 7] = query.numbers[..7].try_into().expect("a cylinder");
    if random.chance(1, 4) {
        zeros(random, &mut numbers);
        if section.len() > 1 {
            let i = random.below(section.len() / 2);
            section[2 * i] = random.sign(0.0);
        }
    }
    let [ax, ay, az, bx, by, bz, radius] = numbers;
    let cylinder = Cylinder { a: Point { x: ax, y: ay, z: az }, b: Point { x: bx, y: by, z: bz }, radius };
    let settings = Settings {
        tolerance: query.numbers[7],
        most: query.numbers[8].to_bits() as u32,
        intervals: query.numbers[9].to_bits() as u32,
    };
    Case { section, cylinder, settings }
}

fn zeros(random: &mut Random, numbers: &mut [f64; 7]) {
    let short = random.chance(1, 3);
    for i in 0..3 {
        if short {
            numbers[3 + i] = numbers[i];
        }
        if random.chance(1, 2) {
            numbers[i] = random.sign(0.0);
            if short || random.chance(1, 2) {
                numbers[3 + i] = random.sign(0.0);
            }
        }
    }
}

pub fn asked(case: &Case, cylinder: Cylinder) -> Result<CylinderHit, Refusal> {
    jorghipa::bare::cylinder(&case.section, cylinder, case.settings)
}

/// One value by its bits; of two zeros the sign may differ, if that is allowed.
fn same_float(a: f64, b: f64, zeros: bool) -> bool {
    a.to_bits() == b.to_bits() || (zeros && a == 0.0 && b == 0.0)
}

/// Two answers: the same number, or distance, witness, edge, counts and mark.
pub fn same(a: &Result<CylinderHit, Refusal>, b: &Result<CylinderHit, Refusal>, zeros: bool) -> bool {
    match (a, b) {
        (Err(a), Err(b)) => a == b,
        (Ok(a), Ok(b)) => {
            let (h, k) = (a.hit, b.hit);
            same_float(h.distance, k.distance, zeros)
                && same_float(h.witness_z, k.witness_z, zeros)
                && same_float(h.witness_radius, k.witness_radius, zeros)
                && h.edge == k.edge
                && (a.boxes, a.waiting, a.cut) == (b.boxes, b.waiting, b.cut)
        }
        _ => false,
    }
}

/// In which direction an accepted cylinder lies: of the three differences of its ends the largest.
pub fn direction(c: &Cylinder) -> &'static str {
    let (x, y, z) = ((c.a.x - c.b.x).abs(), (c.a.y - c.b.y).abs(), (c.a.z - c.b.z).abs());
    if x == 0.0 && y == 0.0 && z == 0.0 {
        "of length 0"
    } else if z >= x && z >= y {
        "along the spindle"
    } else if x >= y {
        "along X"
    } else {
        "along Y"
    }
}

/// A clearance at which the verdict may turn: the distance, or it less half of how far the ends stand apart in any two
/// directions, 1e-9 more, and up to four neighbours off; or any.
pub fn clearance(random: &mut Random, c: &Cylinder, distance: f64) -> f64 {
    let (x, y, z) = (c.a.x - c.b.x, c.a.y - c.b.y, c.a.z - c.b.z);
    let lean = random.pick(&[0.0, x.hypot(y), y.hypot(z), x.hypot(z)]);
    let turning = (distance - lean * 0.5 + 1e-9).clamp(-table::LIMIT, table::LIMIT);
    let near = random.near(turning);
    if random.chance(1, 32) {
        return random.pick(&[f64::NAN, 2e6]);
    }
    random.pick(&[near, near, turning, distance, 0.0, 2.0])
}

#[cfg(test)]
mod tests {
    use super::*;

    /// Moves that do not keep the answer are found out by some of 4,000 cylinders.
    #[test]
    fn wrong_moves_are_found_out() {
        let wrong: [(&str, Move); 3] = [
            ("all z negated", |c| both(c, |p| Point { z: -p.z, ..p })),
            ("the x of one end negated", |c| Cylinder { a: Point { x: -c.a.x, ..c.a }, ..c }),
            ("the y of one end negated", |c| Cylinder { b: Point { y: -c.b.y, ..c.b }, ..c }),
        ];
        let mut random = Random::new(1, 6100);
        let cases: Vec<Case> = (0..4000).map(|_| draw(&mut random)).collect();
        for (name, moved) in wrong {
            let differs = |case: &&Case| !same(&asked(case, case.cylinder), &asked(case, moved(case.cylinder)), true);
            let found = cases.iter().filter(differs).count();
            println!("{name}: {found}");
            assert!(found > 0, "{name}");
        }
    }

    /// Of length 0 from z = +0 to z = -0 beside a section that begins at z = -0: the witness has the first end's sign.
    #[test]
    fn a_zero_changes_its_sign() {
        let section = vec![-0.0, 10.0, 20.0, 10.0, 20.0, 0.0, 0.0, 0.0];
        let end = |z| Point { x: 15.0, y: 0.0, z };
        let cylinder = Cylinder { a: end(0.0), b: end(-0.0), radius: 2.0 };
        let case = Case { section, cylinder, settings: Settings::FINEST };
        let (told, again) = (asked(&case, cylinder), asked(&case, swapped(cylinder)));
        assert!(same(&told, &again, true));
        assert!(!same(&told, &again, false));
    }
}
