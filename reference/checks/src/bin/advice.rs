//! What the settings of the walk cost and give, over ordinary bars across the spindle, beside the true distance of each.

use checks::bars::{KINDS, Kind};
use checks::bisection::{BOUND, Bar, Solid};
use checks::random::Random;
use checks::timing::processor_time;
use jorghipa::{Cylinder, CylinderHit, Point, Settings, bare};

const USAGE: &str = "usage: advice [BARS [SEED]]
Prints markdown tables: for some settings how many of BARS bars (1000 unless given) of each kind are cut, how many boxes
and how long they take, how far what is reported lies from the true distance, and how many collisions read clear. SEED is
1 unless given. The exit code is 1 where a bar was reported higher than the advice of docs/SCOPE.md allows.";

/// A collision counts as one from this depth on; a bar that clears or collides by less is drawn anew.
const SURE: f64 = 0.001;

/// What rounding may add to a cut distance, within 1,024 mm.
const ROUNDING: f64 = 1.0 / 4096.0;

/// A section and a bar along X or Y, and the true distance: below 0 minus the depth of the deepest point.
struct Case {
    section: Vec<f64>,
    bar: Cylinder,
    truth: f64,
}

/// How far above the truth an uncut walk may report.
fn margin(radius: f64, tolerance: f64) -> f64 {
    tolerance.max((2.0 * radius * tolerance).sqrt()).min(radius)
}

fn at(x: f64, y: f64, z: f64) -> Point {
    Point { x, y, z }
}

/// The true distance, if it is sure on which side of contact it lies.
fn truth(section: &[f64], body: [f64; 7]) -> Option<f64> {
    let (bar, solid) = (Bar::new(body), Solid::new(section));
    let gap = bar.gap(&solid);
    let truth = if gap > 0.0 { gap } else { -bar.deepest(&solid) };
    (truth.abs() >= SURE).then_some(truth)
}

/// Half of them along Y.
fn cases(random: &mut Random, kind: &Kind, count: usize) -> Vec<Case> {
    let mut cases = Vec::new();
    while cases.len() < count {
        let (section, body) = (kind.draw)(random);
        let [ax, ay, az, bx, by, bz, radius] = body;
        let bar = match cases.len() % 2 {
            0 => Cylinder { a: at(ax, ay, az), b: at(bx, by, bz), radius },
            _ => Cylinder { a: at(ay, ax, az), b: at(by, bx, bz), radius },
        };
        match truth(&section, body) {
            Some(truth) if kind.clear.is_none_or(|clear| clear == (truth > 0.0)) => {
                cases.push(Case { section, bar, truth })
            }
            _ => {}
        }
    }
    cases
}

/// What the bars of one kind come to at some settings.
struct Row {
    time: f64,
    walks: Vec<CylinderHit>,
    settings: Settings,
}

impl Row {
    fn new(cases: &[Case], settings: Settings) -> Row {
        let start = processor_time();
        let walks =
            cases.iter().map(|case| bare::cylinder(&case.section, case.bar, settings).expect("well formed")).collect();
        Row { time: (processor_time() - start) / cases.len() as f64 * 1e6, walks, settings }
    }

    /// How far each lies above the true distance, or above contact; with V.
    fn high<'a>(&'a self, cases: &'a [Case]) -> impl Iterator<Item = (f64, f64, bool)> + 'a {
        let tolerance = self.settings.tolerance;
        let high = move |(walk, case): (&CylinderHit, &Case)| {
            (walk.hit.distance - case.truth.max(0.0), margin(case.bar.radius, tolerance), walk.cut)
        };
        self.walks.iter().zip(cases).map(high)
    }

    /// The collisions that are judged clear at a clearance of this many times V.
    fn read_clear(&self, cases: &[Case], times: f64) -> usize {
        let judged = self.walks.iter().zip(cases).filter(|(_, case)| case.truth < 0.0);
        let clear = |(walk, case): &(&CylinderHit, &Case)| {
            walk.hit.distance + 1e-9 >= times * margin(case.bar.radius, self.settings.tolerance)
        };
        judged.filter(clear).count()
    }

    fn print(&self, cases: &[Case]) {
        let count = cases.len() as f64;
        let cut = self.walks.iter().filter(|walk| walk.cut).count();
        let boxes = self.walks.iter().map(|walk| f64::from(walk.boxes)).sum::<f64>() / count;
        let clear: Vec<_> = self.walks.iter().zip(cases).filter(|(_, case)| case.truth > 0.0).collect();
        let low = clear.iter().map(|(walk, case)| (case.truth - walk.hit.distance).max(0.0));
        let most_low = low.clone().fold(0.0, f64::max);
        let mean_low = low.fold(0.0, |sum, low| sum + low) / (clear.len() as f64).max(1.0);
        let most_high = self.high(cases).fold(0.0, |most: f64, (high, ..)| most.max(high));
        let share = self.high(cases).filter(|(.., cut)| !cut).fold(0.0, |most: f64, (high, v, _)| most.max(high / v));
        let (at_0, at_v) = (self.read_clear(cases, 0.0), self.read_clear(cases, 1.0));
        let (Settings { tolerance, most, intervals }, time, collisions) =
            (self.settings, self.time, cases.len() - clear.len());
        println!(
            "| {tolerance:?}, {most}, {intervals} | {cut} | {boxes:.0} | {time:.0} | {mean_low:.2} | {most_low:.2} | {most_high:.6} \
             | {share:.3} | {collisions} | {at_0} | {at_v} |"
        );
    }
}

/// The worst over all tables.
#[derive(Default)]
struct Worst {
    share: f64,
    share_at: String,
    /// Of cut walks: above the truth, in mm; below it, as a share of the radius.
    cut_high: f64,
    cut_low: f64,
    clear_at_0: usize,
    clear_at_v: usize,
    deepest: f64,
}

impl Worst {
    fn take(&mut self, cases: &[Case], row: &Row) {
        for ((high, v, cut), case) in row.high(cases).zip(cases) {
            if !cut && high / v > self.share {
                let Case { section, bar, truth } = case;
                self.share = high / v;
                self.share_at = format!("{section:?} {bar:?} at {:?}, truth {truth}", row.settings);
            }
            if cut {
                self.cut_high = self.cut_high.max(high);
            }
            if cut && case.truth > 0.0 {
                self.cut_low = self.cut_low.max(-high / case.bar.radius);
            }
            if case.truth < 0.0 && high + 1e-9 >= 0.0 {
                self.deepest = self.deepest.max(-case.truth);
            }
        }
        self.clear_at_0 += row.read_clear(cases, 0.0);
        self.clear_at_v += row.read_clear(cases, 1.0);
    }

    fn print(&self) {
        println!("uncut, (reported - truth) / V, the most: {:.6}, of {}", self.share, self.share_at);
        println!(
            "cut: above the truth by at most {:e} mm, below it by at most {:.4} of the radius",
            self.cut_high, self.cut_low
        );
        println!("collisions that read clear at clearance 0: {}, the deepest {:.3} mm", self.clear_at_0, self.deepest);
        println!("collisions that read clear at clearance V: {}", self.clear_at_v);
        println!("the true distance is known to {BOUND:e} mm, the depth to 1 in 100 or 0.0001 mm");
    }

    fn as_advised(&self) -> bool {
        self.share <= 1.0 && self.cut_high <= ROUNDING && self.cut_low <= 0.4143 && self.clear_at_v == 0
    }
}

fn settings() -> Vec<Settings> {
    let tolerances =
        [1e-9, 1e-6, 1e-4, 1e-3, 0.01, 0.1, 1.0].map(|tolerance| Settings { tolerance, ..Settings::FINEST });
    let others = [(8192, 4), (8192, 64), (64, 16), (64, 4)].map(|(most, intervals)| Settings {
        tolerance: 0.01,
        most,
        intervals,
    });
    tolerances.into_iter().chain(others).collect()
}

fn main() {
    let numbers = arguments::numbers(&arguments::words(USAGE), [1000, 1]);
    let [count, seed] = numbers.unwrap_or_else(|problem| arguments::refuse(&problem, USAGE));
    let mut worst = Worst::default();
    for (part, kind) in (0..).zip(KINDS) {
        let cases = cases(&mut Random::new(seed, part), &kind, count as usize);
        println!("{count} {}\n", kind.name);
        println!(
            "| settings | cut | boxes | µs | low by, mean | low by, most | high by, most | of V | collide | clear at 0 | clear at V |"
        );
        println!("|---|---:|---:|---:|---:|---:|---:|---:|---:|---:|---:|");
        for settings in settings() {
            let row = Row::new(&cases, settings);
            row.print(&cases);
            worst.take(&cases, &row);
        }
        println!();
    }
    worst.print();
    std::process::exit(if worst.as_advised() { 0 } else { 1 });
}
