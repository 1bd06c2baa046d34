//! The fixed list: queries of every kind and every refusal, from a seed, with the Rust's answers (or the table's).

mod low;

use crate::answer::Answer;
use crate::query::{Kind, Query, numbers_of};
use crate::random::Random;
use crate::{generate, judge, near};
use std::collections::BTreeMap;
use table::{FINEST, Settings};

/// Accepted queries of each kind that are drawn at random, fewer for verdicts, and queries at each threshold.
const RANDOM: usize = 280;
const VERDICTS: usize = 80;
/// Walks that are cut, each of 8,192 boxes.
const CUT: usize = 12;
const NEAR: usize = 12;
/// Refusals of each kind with each number.
const REFUSALS: usize = 3;
/// Most numbers in the lists of a small query, of which there are many; a large query has more than `LARGE`.
const SMALL: usize = 24;
const LARGE: usize = 128;
const LARGEST: usize = 600;
/// The largest space of a builder that `replay` can lend.
const SPACE: usize = 1024;

/// The kinds that the list has. `replay` asks for no lifted witness.
pub fn kinds() -> impl Iterator<Item = Kind> {
    Kind::all().into_iter().filter(|kind| kind.lifted().is_none())
}

/// The numbers that a kind can be refused with.
pub fn refusals(kind: Kind) -> &'static [u32] {
    match kind {
        Kind::Sqrt | Kind::Hypot => &[],
        Kind::Point | Kind::LiftedPoint | Kind::Convex | Kind::VerdictConvex => &[1, 2, 3, 4, 5, 6],
        Kind::Sphere | Kind::LiftedSphere | Kind::VerdictSphere => &[1, 2, 3, 4, 5, 6, 9],
        Kind::Box | Kind::VerdictBox => &[1, 2, 3, 4, 5, 6, 10],
        Kind::Section | Kind::Polygon => &[1, 2, 3, 4, 5, 6, 7, 8],
        Kind::Cylinder | Kind::LiftedCylinder | Kind::VerdictCylinder => &[1, 2, 3, 4, 5, 6, 9, 11],
        Kind::SetCylinder => &[1, 2, 3, 4, 5, 6, 9, 11, 18],
    }
}

/// Document 01's readings on its section S, and its other examples.
fn readings() -> Vec<Query> {
    let s = vec![0.0, 10.0, 20.0, 10.0, 20.0, 0.0, 0.0, 0.0];
    let axis = vec![0.0, 0.0, 20.0, 0.0, 0.0, 0.0];
    let query = |kind, numbers: &[f64]| Query::new(kind, std::slice::from_ref(&s), numbers);
    let mut all = vec![
        Query::new(Kind::Hypot, &[], &[0.5, 0.3]),
        query(Kind::Point, &[0.0, 0.0, 10.0]),
        query(Kind::Point, &[3.0, 4.0, 30.0]),
        query(Kind::Point, &[5.0, 0.0, 20.0]),
        Query::new(Kind::Point, std::slice::from_ref(&axis), &[1.0, 2.0, 3.0]),
        query(Kind::Point, &[0.0, 0.0, 1_048_576.0]),
        query(Kind::Point, &[0.0, 0.0, 1_048_577.0]),
        query(Kind::Sphere, &[0.0, 0.0, 30.0, 4.0]),
        query(Kind::Sphere, &[0.0, 0.0, 30.0, -1.0]),
        query(Kind::Box, &[25.0, 30.0, 0.0, 5.0]),
        query(Kind::Box, &[18.0, 30.0, 0.0, 5.0]),
        query(Kind::Box, &[20.0, 25.0, 0.0, 5.0]),
        query(Kind::Box, &[-5.0, 25.0, 5.0, 15.0]),
        query(Kind::Box, &[5.0, 6.0, -3.0, -2.0]),
        query(Kind::Box, &[5.0, 4.0, 0.0, 5.0]),
        Query::new(Kind::Convex, &[vec![25.0, 5.0, 25.0 + 1e-12, 5.0, 25.0, 5.0 + 1e-12], s.clone()], &[]),
        Query::builder(Kind::Section, vec![0.0, 10.0, 20.0, 10.0], 8),
        Query::builder(Kind::Section, vec![0.0, 0.0, 20.0, 0.0], 8),
        Query::builder(Kind::Section, vec![0.0, 10.0, 20.0, 10.0, 20.0 + 5e-13, 10.0], 10),
        Query::builder(Kind::Section, vec![0.0, -1e-9, 20.0, 10.0], 8),
        Query::builder(Kind::Section, vec![0.0, -0.0, 20.0, 10.0], 8),
        Query::builder(Kind::Section, vec![0.0, 10.0, 20.0, 10.0], 6),
        Query::builder(Kind::Section, vec![0.0, 10.0, 0.0, 0.0], 8),
        Query::builder(Kind::Section, vec![0.0, -1.0, 20.0, 10.0], 8),
        Query::builder(Kind::Section, vec![0.0, 10.0], 8),
        Query::builder(Kind::Section, vec![0.0, 10.0, 20.0], 8),
        Query::builder(Kind::Polygon, vec![0.0, -1.0, 1.0, 1.0, 2.0, 0.0, 0.0, -1.0], 8),
    ];
    all.extend(cylinders().map(|numbers| query(Kind::Cylinder, &numbers)));
    let sphere = |clearance| query(Kind::VerdictSphere, &[0.0, 0.0, 30.0, 4.0, clearance]);
    all.extend([6.0, 6.0 + 1e-9, 6.0 + 2e-9, -1.0, 1_048_576.0, 1_048_577.0, f64::INFINITY, f64::NAN].map(sphere));
    all.push(Query::new(Kind::VerdictSphere, std::slice::from_ref(&axis), &[1.0, 2.0, 3.0, 0.5, 1_048_576.0]));
    let bar = |clearance| query(Kind::VerdictCylinder, &[12.0, 0.0, 10.0, 30.0, 0.0, 10.0, 2.0, clearance]);
    all.extend([2.0, 2.0 + 2e-9].map(bar));
    all.extend(leaning().map(|numbers| query(Kind::VerdictCylinder, &numbers)));
    all.push(query(Kind::VerdictCylinder, &[0.0, 0.0, 0.0, 1.0, 0.0, 1.0, -1.0, f64::NAN]));
    all.extend(settings().map(|(body, set)| query(Kind::SetCylinder, &[body.as_slice(), &numbers_of(set)].concat())));
    all.extend(low::queries());
    all.extend(edges());
    all
}

/// S from its axis edge on, with a vertex that comes twice, with an edge there and back, and turned the other way, each beside
/// bodies that are equally near to several edges, touch a corner, or hold vertices.
fn edges() -> impl Iterator<Item = Query> {
    let sections = [
        vec![20.0, 0.0, 0.0, 0.0, 0.0, 10.0, 20.0, 10.0],
        vec![20.0, 10.0, 20.0, 10.0, 20.0, 0.0, 0.0, 0.0, 0.0, 10.0, 0.0, 10.0],
        vec![0.0, 10.0, 20.0, 10.0, 0.0, 10.0, 20.0, 10.0, 20.0, 0.0, 0.0, 0.0],
        vec![0.0, 0.0, 20.0, 0.0, 20.0, 10.0, 0.0, 10.0],
    ];
    let points = [[0.0, 0.0, 10.0], [14.0, 0.0, 23.0], [14.0, 0.0, -3.0], [0.0, 0.0, 30.0], [10.0, 0.0, 20.0]];
    let boxes = [
        [25.0, 30.0, 0.0, 5.0],
        [20.0, 25.0, 10.0, 15.0],
        [-5.0, 25.0, 5.0, 15.0],
        [-5.0, 26.0, -5.0, 16.0],
        [16.0, 30.0, 9.0, 12.0],
        [5.0, 15.0, 12.0, 14.0],
        [5.0, 15.0, -4.0, -2.0],
        [0.0, 20.0, 0.0, 10.0],
    ];
    let cylinders = [
        [15.0, 0.0, 0.0, 15.0, 0.0, 30.0, 2.0],
        [0.0, 0.0, -5.0, 0.0, 0.0, 30.0, 12.0],
        [12.0, 0.0, 20.0, 30.0, 0.0, 20.0, 0.0],
        [0.0, 12.0, 20.0, 0.0, 30.0, 20.0, 1e-15],
        [0.0, 0.0, 20.0, 30.0, 0.0, 20.0, 1.0],
        [0.0, -30.0, 20.0, 0.0, 30.0, 20.0, 1.0],
    ];
    sections.into_iter().flat_map(move |s| {
        let query = |kind, numbers: &[f64]| Query::new(kind, std::slice::from_ref(&s), numbers);
        let corners = |[z0, z1, r0, r1]: [f64; 4]| vec![z0, r0, z1, r0, z1, r1, z0, r1];
        let mut all: Vec<Query> = points.iter().map(|point| query(Kind::Point, point)).collect();
        all.extend(points.map(|[x, y, z]| query(Kind::Sphere, &[x, y, z, 4.0])));
        all.extend(boxes.map(|bounds| query(Kind::Box, &bounds)));
        all.extend(boxes.map(|bounds| Query::new(Kind::Convex, &[corners(bounds), s.clone()], &[])));
        all.extend(cylinders.map(|body| query(Kind::Cylinder, &body)));
        all
    })
}

/// Cylinders beside S, along the spindle and across it both ways, a line, one that is turned down; each at the edges of the
/// ranges of the settings, one step outside, and at what is no number.
fn settings() -> impl Iterator<Item = ([f64; 7], Settings)> {
    let bodies = [
        [15.0, 0.0, 0.0, 15.0, 0.0, 30.0, 2.0],
        [12.0, 3.0, 22.0, 30.0, 3.0, 22.0, 1.0],
        [3.0, 12.0, 22.0, 3.0, 30.0, 22.0, 1.0],
        [12.0, 0.0, 10.0, 30.0, 0.0, 10.0, 1e-15],
        [0.0, 0.0, 0.0, 1.0, 0.0, 1.0, -1.0],
    ];
    let tolerances = [1e-9f64.next_down(), 1e-9f64.next_up(), 1f64.next_down(), 1.0, 1f64.next_up(), f64::NAN]
        .into_iter()
        .chain([f64::INFINITY, f64::NEG_INFINITY, 0.0, -0.0, 5e-324, -1e-9, 0.01])
        .map(|tolerance| Settings { tolerance, ..FINEST });
    let mosts = [0, 1, 2, 3, 8191, 8193, u32::MAX].map(|most| Settings { most, ..FINEST });
    let intervals = [0, 1, 2, 3, 15, 17, 63, 64, 65, u32::MAX].map(|intervals| Settings { intervals, ..FINEST });
    let coarse = Settings { tolerance: 0.01, most: 64, intervals: 4 };
    let all: Vec<Settings> = tolerances.chain(mosts).chain(intervals).chain([FINEST, coarse]).collect();
    bodies.into_iter().flat_map(move |body| all.clone().into_iter().map(move |set| (body, set)))
}

/// Bars of 1,024 mm beside S that lean, along the spindle, along X and along Y, with the clearances that tell half of the
/// length from all and from none of it.
fn leaning() -> impl Iterator<Item = [f64; 8]> {
    let (share, tick) = (1.0 / 128.0, 2f64.powi(-19));
    let bars = [
        ([15.0 - 3.0 * share, -4.0 * share, 0.0, 15.0 + 3.0 * share, 4.0 * share, 1024.0, 2.0], 3.0, 10.0 * share),
        ([12.0, -0.0625, 10.0, 1036.0, 0.0625, 10.0, 0.0], 2.0, 0.125),
        ([12.0, 2.0 * tick, 10.0, 1036.0, -2.0 * tick, 10.0 + 3.0 * tick, 0.0], 2.0, 5.0 * tick),
        ([0.0625, 12.0, 10.0, -0.0625, 1036.0, 10.0, 0.0], 2.0, 0.125),
        ([2.0 * tick, 12.0, 10.0, -2.0 * tick, 1036.0, 10.0 + 3.0 * tick, 0.0], 2.0, 5.0 * tick),
    ];
    bars.into_iter().flat_map(|([ax, ay, az, bx, by, bz, radius], distance, length)| {
        [0.0, 0.25, 0.5, 0.75, 1.0].into_iter().flat_map(move |share| {
            let judged = distance - share * length;
            [judged, judged + 2e-9].map(|clearance| [ax, ay, az, bx, by, bz, radius, clearance])
        })
    })
}

/// Cylinders beside S: document 01's readings and examples of walks, cut and uncut; then lengths of nothing, or whose
/// reciprocal is the largest or overflows; radii about 0 and 1e-15; limits; and what is turned down.
fn cylinders() -> impl Iterator<Item = [f64; 7]> {
    let (tiny, thin) = (5e-324, 1e-15f64);
    // The smallest length whose reciprocal is an f64, and the one below it.
    let (short, shorter) = (f64::from_bits(0x0004_0000_0000_0001), f64::from_bits(0x0004_0000_0000_0000));
    let walks = [
        [15.0, 0.0, 0.0, 15.0, 0.0, 30.0, 2.0],
        [12.0, 0.0, 10.0, 30.0, 0.0, 10.0, 0.0],
        [12.0, 0.0, 10.0, 30.0, 0.0, 10.0, 2f64.powi(-30)],
        [12.0, 0.0, 10.0, 30.0, 0.0, 10.0, 2.0],
        [4.0, 8.0, 21.5, 24.0, 8.0, 21.5, 4.0],
        [0.0, 0.0, 10.0, 30.0, 0.0, 10.0, 1.0],
        [0.0, 0.0, -1048576.0, 30.0, 0.0, -1048576.0, 1048576.0],
    ];
    let lengths = [[0.0, 0.0, 0.0], [0.0, 0.0, tiny], [tiny, 0.0, tiny], [tiny, 0.0, 0.0], [0.0, tiny, 0.0]];
    let reciprocals =
        [[short, 0.0, 0.0], [shorter, 0.0, 0.0], [0.0, 0.0, short], [0.0, 0.0, shorter], [0.0, short, 0.0]];
    let radii = [-0.0, tiny, thin.next_down(), thin, thin.next_up(), 1048576.0, 1048577.0, -tiny, -1.0, f64::NAN];
    let others = [
        [15.0, 0.0, 1048576.0, 15.0, 0.0, -1048576.0, 2.0],
        [-1048576.0, 1048576.0, 1048576.0, 1048576.0, 1048576.0, 1048576.0, 0.0],
        [12.0, 0.0, 10.0, 1048577.0, 0.0, 10.0, 0.0],
        [12.0, 0.0, 10.0, f64::INFINITY, 0.0, 10.0, 0.0],
        [0.0, 0.0, 0.0, 1.0, 0.0, 1.0, 1.0],
        [0.0, 0.0, 0.0, 0.0, 1.0, 0.0, 1.0],
        [0.0, 0.0, 0.0, 1.0, 0.0, 1.0, -1.0],
    ];
    let ends = lengths.into_iter().chain(reciprocals).map(|[x, y, z]| [0.0, 0.0, 0.0, x, y, z, 0.5]);
    let across = radii.into_iter().map(|radius| [12.0, 0.0, 10.0, 30.0, 0.0, 10.0, radius]);
    let along_y = [
        [0.0, 12.0, 10.0, 0.0, 30.0, 10.0, 0.0],
        [0.0, 12.0, 10.0, 0.0, 30.0, 10.0, 2f64.powi(-30)],
        [8.0, 4.0, 21.5, 8.0, 24.0, 21.5, 4.0],
        [3.0, -30.0, 10.0, 3.0, -12.0, 10.0, 2.0],
        [0.0, 0.0, 0.0, 0.0, shorter, 0.0, 0.5],
        [0.0, 0.0, 0.0, 1.0, 1.0, 0.0, 0.5],
    ];
    walks.into_iter().chain(ends).chain(across).chain(others).chain(along_y)
}

/// Everything that the list holds, in order of kind.
pub fn queries(seed: u64) -> Vec<Query> {
    let mut all = readings();
    for kind in kinds() {
        for (i, threshold) in near::thresholds(kind).iter().enumerate() {
            let mut random = Random::new(seed, 1 + i as u64 + 100 * kind as u64);
            all.extend((0..NEAR).map(|_| threshold.query(&mut random)));
        }
        all.extend(drawn(&mut Random::new(seed, 100 * kind as u64), kind));
    }
    all.sort_by_key(|query| query.kind);
    all
}

/// How many small queries, large ones and cut walks are drawn of a kind.
fn shares(kind: Kind) -> (usize, usize, usize) {
    match kind {
        Kind::Sqrt | Kind::Hypot => (RANDOM, 0, 0),
        Kind::Point | Kind::Sphere | Kind::Box | Kind::Convex | Kind::Section | Kind::Polygon => (RANDOM, 1, 0),
        Kind::Cylinder | Kind::SetCylinder => (RANDOM, 0, CUT),
        Kind::VerdictSphere | Kind::VerdictBox | Kind::VerdictCylinder | Kind::VerdictConvex => (VERDICTS, 0, 0),
        Kind::LiftedPoint | Kind::LiftedSphere | Kind::LiftedCylinder => (0, 0, 0),
    }
}

/// Small queries, a large one where the kind has them, walks that are cut, and every refusal.
fn drawn(random: &mut Random, kind: Kind) -> Vec<Query> {
    let (mut all, mut refused) = (Vec::new(), BTreeMap::new());
    let (most_small, most_large, most_cut) = shares(kind);
    let (mut small, mut large, mut cut) = (0, 0, 0);
    let complete = |refused: &BTreeMap<u32, usize>| {
        refusals(kind).iter().all(|number| refused.get(number).is_some_and(|&count| count >= REFUSALS))
    };
    while small < most_small || large < most_large || cut < most_cut || !complete(&refused) {
        let query = generate::query(random, kind);
        let numbers = query.lists.iter().map(Vec::len).sum::<usize>();
        let keep = match judge::expected(&query) {
            _ if numbers > LARGEST || query.space > SPACE => false,
            Answer::Refused(number) => {
                let count = refused.entry(number).or_default();
                *count += 1;
                *count <= REFUSALS
            }
            answer if answer.cut() => {
                cut += 1;
                cut <= most_cut
            }
            _ if numbers <= SMALL => {
                small += 1;
                small <= most_small
            }
            _ if numbers > LARGE => {
                large += 1;
                large <= most_large
            }
            _ => false,
        };
        if keep {
            all.push(query);
        }
    }
    all
}

pub fn write(seed: u64, list: &str, answers: &str) -> Result<(), String> {
    let queries = queries(seed);
    let text = |line: fn(&Query) -> String| queries.iter().map(|query| line(query) + "\n").collect::<String>();
    let save = |path: &str, text: String| std::fs::write(path, text).map_err(|error| format!("{path}: {error}"));
    save(list, text(Query::line))?;
    save(answers, text(|query| judge::expected(query).line()))?;
    println!("seed {seed}: {} queries", queries.len());
    Ok(())
}
