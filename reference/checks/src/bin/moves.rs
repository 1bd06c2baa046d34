//! Compares request (ix)'s call with single queries and verdicts, step by step: every order of numbers, then moves from a seed.

use checks::generate;
use checks::moves::{Move, RIGHT, Report, as_given, at_step, called, expected, port, same};
use checks::random::Random;
use std::collections::BTreeMap;
use std::process::ExitCode;
use table::{Body, FINEST, LIMIT, Settings};

const USAGE: &str = "usage: moves [SEED [COUNT]]
Compares trying a move, in C and in the wrapper, with one query and one verdict for each step and with the table of refusals: every
two numbers that could be given in the wrong order, then COUNT (20000) moves and COUNT tipping cylinders from SEED (1).
Exit code 1 at a difference.";

const S: [f64; 8] = [0.0, 10.0, 20.0, 10.0, 20.0, 0.0, 0.0, 0.0];

/// A good section, and 1, 2, 3, 4, 5, 6.
fn sections() -> Vec<Vec<f64>> {
    let with = |i: usize, x: f64| {
        let mut section = S.to_vec();
        section[i] = x;
        section
    };
    let wrong = [S[..7].to_vec(), S[..4].to_vec(), vec![1.0; 514], with(3, f64::NAN), with(0, 2e6), with(5, -1.0)];
    [vec![S.to_vec()], wrong.to_vec()].concat()
}

/// Good ones of every kind, and 4, 5, 9, 10, 11.
const BODIES: [Body; 8] = [
    Body::Sphere([0.0, 0.0, 30.0, 4.0]),
    Body::Box([25.0, 30.0, 0.0, 5.0]),
    Body::Cylinder([15.0, 0.0, 0.0, 15.0, 0.0, 30.0, 2.0]),
    Body::Sphere([f64::NAN, 0.0, 0.0, -1.0]),
    Body::Box([5.0, 4.0, 2e6, 0.0]),
    Body::Cylinder([0.0, 0.0, 0.0, 1.0, 0.0, 1.0, -1.0]),
    Body::Box([5.0, 4.0, 0.0, 1.0]),
    Body::Cylinder([0.0, 0.0, 0.0, 1.0, 0.0, 1.0, 1.0]),
];

/// Good, not finite and over the limit, at the start and at the end; and good ones that lead over the limit.
const OFFSETS: [([f64; 3], [f64; 3]); 7] = [
    ([0.0; 3], [0.0, 0.0, -12.0]),
    ([0.0, f64::NAN, 0.0], [0.0; 3]),
    ([0.0; 3], [0.0, 0.0, f64::INFINITY]),
    ([2e6, 0.0, 0.0], [0.0; 3]),
    ([0.0; 3], [0.0, -2e6, 0.0]),
    ([LIMIT; 3], [0.0; 3]),
    ([0.0; 3], [LIMIT; 3]),
];

fn check(given: &Move) -> Result<Result<Report, u32>, String> {
    let (expected, (kind, numbers)) = (expected(given), as_given(&given.body));
    let answers = [port(given), called(given, kind, &numbers)];
    if answers.iter().any(|answer| !same(answer, &expected)) {
        return Err(format!("DIFFERENCE\n  {given:?}\n  expected {expected:?}\n  port     {answers:?}"));
    }
    Ok(expected)
}

/// What C alone can be given: another count of numbers than seven, and other kinds.
fn check_foreign(given: &Move) -> Result<(), String> {
    let (_, numbers) = as_given(&given.body);
    let long = [numbers.as_slice(), &[0.0]].concat();
    for (kind, numbers, number) in [
        (2, &numbers[..6], 1),
        (9, &numbers[..0], 1),
        (4, &long, 1),
        (0, &numbers, 14),
        (1, &numbers, 14),
        (5, &numbers, 14),
    ] {
        if called(given, kind, numbers).err() != Some(number) {
            return Err(format!("DIFFERENCE\n  kind {kind}, {} numbers of {given:?}", numbers.len()));
        }
    }
    Ok(())
}

#[derive(Default)]
struct Totals {
    outcomes: BTreeMap<String, u64>,
    /// Refused only at a placement after the first, and cylinders that a placement tipped.
    later: u64,
    tipped: u64,
    steps: u64,
}

impl Totals {
    fn add(&mut self, given: &Move, answer: Result<Report, u32>) {
        let outcome = match answer {
            Ok(report) => {
                self.steps += u64::from(given.steps) + 1;
                let place = match report.step {
                    0 => "at the start",
                    n if n == given.steps => "at the end",
                    _ => "between",
                };
                format!("{}, smallest {place}", if report.colliding.is_some() { "collision" } else { "clear" })
            }
            Err(number) => {
                let accepted = given.body.alone().is_ok() && (1..=4096).contains(&given.steps);
                if accepted && at_step(given, 0, RIGHT).alone().is_ok() && [5, 11].contains(&number) {
                    self.later += 1;
                }
                self.tipped += u64::from(number == 11 && given.body.alone().is_ok());
                format!("refused {number:2}")
            }
        };
        *self.outcomes.entry(outcome).or_default() += 1;
    }
}

/// Every section, clearance, body, pair of offsets, settings and step count.
fn orders(totals: &mut Totals) -> Result<(), String> {
    let ranges = [FINEST, Settings { tolerance: f64::NAN, ..FINEST }, Settings { intervals: 65, ..FINEST }];
    for section in sections() {
        for clearance in [1.0, f64::NAN, -2e6] {
            for body in BODIES {
                for (start, end) in OFFSETS {
                    for settings in ranges {
                        for steps in [1, 4, 0, 4097] {
                            let given = Move { section: section.clone(), body, clearance, start, end, steps, settings };
                            totals.add(&given, check(&given)?);
                            check_foreign(&given)?;
                        }
                    }
                }
            }
        }
    }
    Ok(())
}

/// 4,096 steps of every kind: through the section, along an edge, up to the limit and over it.
fn long_ones(totals: &mut Totals) -> Result<(), String> {
    let coarse = Settings { tolerance: 0.01, most: 64, intervals: 4 };
    let bodies = [BODIES[0], BODIES[1], BODIES[2], Body::Cylinder([12.0, 0.0, 10.0, 30.0, 0.0, 10.0, 2.0])];
    let paths = [
        ([0.0; 3], [0.0, 0.0, -60.0]),
        ([3.0, 1.0, -40.0], [-40.0, 7.0, 3.0]),
        ([10.0, 0.0, -30.0], [10.0, 0.0, -10.0]),
        ([0.0; 3], [LIMIT - 40.0, 0.0, LIMIT - 40.0]),
        ([0.0; 3], [0.0, 0.0, LIMIT]),
    ];
    for body in bodies {
        for (start, end) in paths {
            let section = S.to_vec();
            let given = Move { section, body, clearance: 1.0, start, end, steps: 4096, settings: coarse };
            totals.add(&given, check(&given)?);
        }
    }
    Ok(())
}

fn compare(seed: u64, count: u64) -> Result<(), String> {
    let mut totals = Totals::default();
    orders(&mut totals)?;
    long_ones(&mut totals)?;
    println!("orders and long moves: {}", totals.outcomes.values().sum::<u64>());
    for (part, draw) in [(400, generate::any_move as fn(&mut Random) -> Move), (401, generate::tipping)] {
        let mut random = Random::new(seed, part);
        for _ in 0..count {
            let given = draw(&mut random);
            totals.add(&given, check(&given)?);
        }
    }
    println!("seed {seed}: {count} moves, {count} cylinders that may tip");
    totals.outcomes.iter().for_each(|(outcome, count)| println!("    {count:>9}  {outcome}"));
    let Totals { later, tipped, steps, .. } = totals;
    println!("{later} refused at a later placement, {tipped} tipped past the axis test, {steps} steps measured");
    println!("{} moves, 0 differences", totals.outcomes.values().sum::<u64>());
    Ok(())
}

fn main() -> ExitCode {
    let numbers = arguments::numbers(&arguments::words(USAGE), [1, 20_000]);
    let [seed, count] = numbers.unwrap_or_else(|problem| arguments::refuse(&problem, USAGE));
    arguments::ended(compare(seed, count))
}
