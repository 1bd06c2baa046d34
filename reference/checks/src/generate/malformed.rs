//! Queries that are to be refused, each for one reason or for several at once.

use crate::query::{Kind, Query, numbers_of};
use crate::random::Random;

const BAD: [f64; 12] = [
    f64::NAN,
    f64::INFINITY,
    f64::NEG_INFINITY,
    f64::MAX,
    f64::MIN,
    1_048_577.0,
    -1_048_577.0,
    1_048_576.000_000_000_2,
    -1_048_576.000_000_000_2,
    1e300,
    -2e6,
    4e9,
];

pub fn spoil(random: &mut Random, query: &mut Query) {
    for _ in 0..1 + random.below(8) / 6 {
        match random.below(8) {
            0 => odd(random, query),
            1 => short(random, query),
            2 => long(random, query),
            3 | 4 => bad_number(random, query),
            _ => bad_body(random, query),
        }
    }
    // Beside the fault above, of which some come before 6 and some after it, or alone.
    if random.chance(1, 3) {
        below_axis(random, query);
    }
    if query.kind == Kind::SetCylinder && random.chance(1, 4) {
        bad_setting(random, query);
    }
}

fn some_list<'a>(random: &mut Random, query: &'a mut Query) -> &'a mut Vec<f64> {
    let i = random.below(query.lists.len());
    &mut query.lists[i]
}

fn odd(random: &mut Random, query: &mut Query) {
    let more = random.chance(1, 2);
    let list = some_list(random, query);
    if more {
        list.push(1.0);
    } else {
        list.pop();
    }
}

fn short(random: &mut Random, query: &mut Query) {
    let length = random.pick(&[0, 1, 2, 3, 4]);
    some_list(random, query).truncate(length);
}

/// One vertex too many, or more; with an odd count too.
fn long(random: &mut Random, query: &mut Query) {
    let length = random.pick(&[510, 511, 512, 513, 514, 516, 1024]);
    let list = some_list(random, query);
    let old = list.len().max(1);
    list.resize(old, 0.0);
    for i in old..length {
        list.push(list[i % old]);
    }
    if query.kind.is_builder() {
        query.space = random.pick(&[length + 4, length + 9, 4]);
    }
}

/// NaN (with any payload), an infinity or a number past the limit, anywhere.
fn bad_number(random: &mut Random, query: &mut Query) {
    let mut bad = random.pick(&BAD);
    if bad.is_nan() {
        bad = f64::from_bits(0x7ff0_0000_0000_0001 | random.bits() & 0x800f_ffff_ffff_ffff);
    }
    let places = query.lists.iter().map(Vec::len).sum::<usize>() + query.numbers.len();
    if places == 0 {
        return;
    }
    let place = if random.chance(1, 2) { places - 1 - random.below(places.min(7)) } else { random.below(places) };
    let all = query.lists.iter_mut().flatten().chain(&mut query.numbers);
    all.enumerate().filter(|(i, _)| *i == place).for_each(|(_, x)| *x = bad);
}

/// A vertex of the section below -1e-9, or the whole section on the other side of the spindle.
fn below_axis(random: &mut Random, query: &mut Query) {
    let Some(section) = query.lists.last_mut() else { return };
    let count = section.len() / 2;
    if count == 0 {
        return;
    }
    if random.chance(1, 8) {
        section.iter_mut().skip(1).step_by(2).for_each(|radius| *radius = -*radius);
        return;
    }
    let threshold = random.near(-1e-9);
    section[2 * random.below(count) + 1] =
        random.pick(&[threshold, -1.1e-9, -2e-9, -1e-8, -1.0, -50.0, -1_048_576.0, -2e6, f64::MIN]);
}

/// A setting one step outside its range, or far out.
fn bad_setting(random: &mut Random, query: &mut Query) {
    let tolerances = [1e-9f64.next_down(), 1f64.next_up(), f64::NAN, f64::INFINITY, f64::NEG_INFINITY, 0.0, -0.0];
    let more = [5e-324, f64::MIN_POSITIVE, -1e-9, -1.0, 2.0, f64::MAX];
    let mut settings = query.settings();
    match random.below(3) {
        0 => settings.tolerance = random.pick(&[tolerances.as_slice(), &more].concat()),
        1 => settings.most = random.pick(&[0, 8193, 8194, 65536 + 64, u32::MAX]),
        _ => settings.intervals = random.pick(&[0, 65, 128, 256 + 16, u32::MAX]),
    }
    query.numbers.splice(7.., numbers_of(settings));
}

/// What each kind refuses by itself.
fn bad_body(random: &mut Random, query: &mut Query) {
    match query.kind.lifted().unwrap_or(query.kind) {
        Kind::Sphere | Kind::VerdictSphere | Kind::Box | Kind::VerdictBox if random.chance(1, 4) => {
            below_axis(random, query);
        }
        Kind::Cylinder | Kind::VerdictCylinder | Kind::SetCylinder if random.chance(1, 4) => below_axis(random, query),
        Kind::Sphere | Kind::VerdictSphere => {
            let radius = random.pick(&[-1.0, -5e-324, -1e-9, -3e6]);
            query.numbers[3] = radius;
        }
        Kind::SetCylinder if random.chance(1, 2) => bad_setting(random, query),
        Kind::Cylinder | Kind::VerdictCylinder | Kind::SetCylinder if random.chance(1, 2) => {
            query.numbers[6] = -random.size(-9, 1);
        }
        Kind::Cylinder | Kind::VerdictCylinder | Kind::SetCylinder => {
            query.numbers[1] += random.pick(&[1.0, 1e-3, -7.0]);
        }
        Kind::Box | Kind::VerdictBox => {
            let side = 2 * random.below(2);
            query.numbers.swap(side, side + 1);
        }
        Kind::Section | Kind::Polygon if random.chance(1, 2) => {
            query.space = query.lists[0].len().saturating_sub(random.below(5)) + random.below(5);
        }
        Kind::Section | Kind::Polygon if random.chance(1, 2) => {
            // All points alike: too few are kept.
            let list = &mut query.lists[0];
            for i in 2..list.len() {
                list[i] = list[i % 2];
            }
        }
        Kind::Section | Kind::Polygon | Kind::Point | Kind::Convex | Kind::VerdictConvex => below_axis(random, query),
        Kind::Sqrt | Kind::Hypot => {}
        Kind::LiftedPoint | Kind::LiftedSphere | Kind::LiftedCylinder => {}
    }
}
