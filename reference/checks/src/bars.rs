//! Ordinary bars across the spindle, beside sections as a drawing gives them: each a section and a straight bar along X.

use random::Random;

/// A section, and ax, ay, az, bx, by, bz, radius.
pub type Beside = (Vec<f64>, [f64; 7]);

/// What a kind is called, whether its bars have to clear, collide, or may do either, and how one is drawn.
pub struct Kind {
    pub name: &'static str,
    pub clear: Option<bool>,
    pub draw: fn(&mut Random) -> Beside,
}

pub const KINDS: [Kind; 7] = [
    Kind { name: "drills over a plain rim", clear: Some(true), draw: over_rim },
    Kind { name: "holders beside a stepped chuck", clear: Some(true), draw: holder },
    Kind { name: "bars whose flank passes a corner", clear: None, draw: past_corner },
    Kind { name: "bars before the face of a ring", clear: None, draw: before_ring },
    Kind { name: "bars beside a taper", clear: None, draw: beside_taper },
    Kind { name: "drills through a ring", clear: Some(false), draw: through_ring },
    Kind { name: "bars into a stepped chuck", clear: Some(false), draw: holder },
];

fn halves(random: &mut Random, low: i64, high: i64) -> f64 {
    random.whole(2 * low, 2 * high) as f64 / 2.0
}

/// From 10^low to 10^high, all magnitudes as likely.
fn magnitude(random: &mut Random, low: f64, high: f64) -> f64 {
    10f64.powf(random.between(low, high))
}

fn along_x(from: f64, length: f64, y: f64, z: f64, radius: f64) -> [f64; 7] {
    [from, y, z, from + length, y, z, radius]
}

/// A chuck or workpiece of 2 to 8 steps, from z 0 on: radii 10 to 80, steps 5 to 40 long.
fn stepped(random: &mut Random) -> Vec<f64> {
    let (mut list, mut z) = (Vec::new(), 0.0);
    for _ in 0..random.whole(2, 8) {
        let radius = halves(random, 10, 80);
        list.extend([z, radius]);
        z += halves(random, 5, 40);
        list.extend([z, radius]);
    }
    list.extend([z, 0.0, 0.0, 0.0]);
    list
}

/// A cross drill: radius 1 to 10, at most 2 off the middle, its tip 0.5 to 20 above the rim.
fn over_rim(random: &mut Random) -> Beside {
    let (rim, length) = (halves(random, 10, 80), halves(random, 20, 200));
    let (x, y) = (rim + random.between(0.5, 20.0), random.between(-2.0, 2.0));
    let (z, radius) = (random.between(0.0, length), random.between(1.0, 10.0));
    (vec![0.0, rim, length, rim, length, 0.0, 0.0, 0.0], along_x(x, random.between(20.0, 100.0), y, z, radius))
}

/// A holder or boring bar: radius 4 to 20, somewhere above the steps or before the face.
fn holder(random: &mut Random) -> Beside {
    let section = stepped(random);
    let most = |first: usize| section.iter().skip(first).step_by(2).fold(0.0, |most: f64, x| most.max(*x));
    let (length, rim, radius) = (most(0), most(1), random.between(4.0, 20.0));
    let (x, z) = match random.chance(1, 2) {
        true => (random.between(0.0, rim), length + radius + random.between(0.5, 20.0)),
        false => (random.between(10.0, rim + 20.0), random.between(0.0, length + 20.0)),
    };
    let y = random.between(-rim, rim);
    (section, along_x(x, random.between(40.0, 150.0), y, z, radius))
}

/// A bar over the spindle beside a shaft, its flank within 1 mm of the shaft's corner on either side: radius 2 to 50. The corner
/// stands 1e-4 to 1 radians off the flank.
fn past_corner(random: &mut Random) -> Beside {
    let (rim, length) = (halves(random, 10, 80), halves(random, 20, 100));
    let (radius, off) = (random.between(2.0, 50.0), magnitude(random, -4.0, 0.0));
    let from_middle = radius + random.pick(&[1.0, 1.0, -1.0]) * magnitude(random, -3.0, 0.0);
    let (z, y) = (length + from_middle * off.cos(), rim + from_middle * random.sign(off.sin()));
    let half = random.between(10.0, 80.0);
    (vec![0.0, rim, length, rim, length, 0.0, 0.0, 0.0], along_x(-half, 2.0 * half, y, z, radius))
}

/// A bar whose flank is within 1 mm of the face of a thin ring, before it or in it: radius 2 to 50. The ring's radii lie between
/// the bar's least radius there and its mean one.
fn before_ring(random: &mut Random) -> Beside {
    let (radius, y, near) = (random.between(2.0, 50.0), random.between(0.0, 60.0), random.between(0.0, 30.0));
    let length = random.between(40.0, 150.0);
    let (least, greatest) = (near.hypot(y), (near + length).hypot(y));
    let room = (greatest - least) / 2.0;
    let (bore, rim) = (least + room * random.between(0.1, 0.4), least + room * random.between(0.5, 0.9));
    let (width, gap) = (halves(random, 5, 60), magnitude(random, -3.0, 0.0));
    let z = width + radius + random.sign(gap);
    (vec![0.0, bore, width, bore, width, rim, 0.0, rim], along_x(near, length, y, z, radius))
}

/// A bar of radius 2 to 20 near a taper of any slope.
fn beside_taper(random: &mut Random) -> Beside {
    let (first, last, length) = (halves(random, 5, 60), halves(random, 5, 60), halves(random, 5, 100));
    let (radius, z) = (random.between(2.0, 20.0), random.between(-20.0, length + 20.0));
    let rim = first + (last - first) * (z / length).clamp(0.0, 1.0);
    let y = rim + random.between(-5.0, 2.0 * radius + 5.0);
    let section = vec![0.0, first, length, last, length, 0.0, 0.0, 0.0];
    let from = random.pick(&[-40.0, -10.0, 0.0, 3.0]);
    (section, along_x(from, random.between(20.0, 100.0), y, z, radius))
}

/// A cross drill from somewhere in the bore to beyond the rim: radius 0.5 to 10, at most 2 off the middle.
fn through_ring(random: &mut Random) -> Beside {
    let (bore, wall, length) = (halves(random, 3, 50), halves(random, 1, 20), halves(random, 2, 60));
    let (x, y) = (random.between(-bore, bore), random.between(-2.0, 2.0));
    let (z, radius) = (random.between(0.0, length), random.between(0.5, 10.0));
    let section = vec![0.0, bore, length, bore, length, bore + wall, 0.0, bore + wall];
    (section, along_x(x, bore + wall - x + random.between(1.0, 50.0), y, z, radius))
}
