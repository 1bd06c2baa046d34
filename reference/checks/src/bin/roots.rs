//! Judges the port's sqrt and hypot by whole-number arithmetic; with the feature `mpfr` by MPFR too.

use checks::random::Random;
use checks::root_cases::{HYPOT, SQRT};
use std::collections::BTreeMap;
use std::process::ExitCode;
use std::time::Instant;

const USAGE: &str = "usage: roots [CASES [SEED]]
Judges the port's sqrt and hypot by whole-number arithmetic, on hard and random operands from the seed.
CASES is 100000000 unless given, SEED 1. Exit code 1 at a difference.";

/// One case in so many is also judged by bisection over all of f64, which is slow.
const PLAIN: u64 = 50_000;

fn same(a: f64, b: f64) -> bool {
    a == b || a.is_nan() && b.is_nan()
}

/// The judges' answers; the last ones only where they were asked.
struct Judges {
    #[cfg(feature = "mpfr")]
    mpfr: checks::mpfr::Mpfr,
}

impl Judges {
    fn new() -> Judges {
        Judges {
            #[cfg(feature = "mpfr")]
            mpfr: checks::mpfr::Mpfr::default(),
        }
    }

    fn sqrt(&mut self, x: f64, plainly: bool) -> Result<(), String> {
        let port = jorghipa::sqrt(x);
        let judge = |name: &str, expected: f64| {
            let problem = || format!("sqrt({x:e} = {:016x}): {name} {expected:e}, port {port:e}", x.to_bits());
            if same(port, expected) { Ok(()) } else { Err(problem()) }
        };
        judge("whole numbers", exact_hypot::sqrt(x))?;
        if plainly {
            judge("bisection", exact_hypot::plain::sqrt(x))?;
        }
        #[cfg(feature = "mpfr")]
        judge("MPFR", self.mpfr.sqrt(x))?;
        Ok(())
    }

    fn hypot(&mut self, a: f64, b: f64, plainly: bool) -> Result<(), String> {
        let port = jorghipa::hypot(a, b);
        let judge = |name: &str, expected: f64| {
            let bits = format!("{:016x}, {:016x}", a.to_bits(), b.to_bits());
            if same(port, expected) {
                return Ok(());
            }
            Err(format!("hypot({a:e}, {b:e} = {bits}): {name} {expected:e}, port {port:e}"))
        };
        judge("whole numbers", exact_hypot::hypot(a, b))?;
        if plainly {
            judge("bisection", exact_hypot::plain::hypot(a, b))?;
        }
        #[cfg(feature = "mpfr")]
        judge("MPFR", self.mpfr.hypot(a, b))?;
        Ok(())
    }
}

fn run(cases: u64, seed: u64) -> Result<(), String> {
    let (mut judges, mut random, start) = (Judges::new(), Random::new(seed, 0), Instant::now());
    let mut counts = BTreeMap::new();
    println!("seed {seed}, judged by whole numbers{}", if cfg!(feature = "mpfr") { " and MPFR" } else { "" });
    for case in 0..cases {
        let plainly = case % PLAIN == 0;
        let class = random.below(SQRT.len() + HYPOT.len());
        if class < SQRT.len() {
            judges.sqrt(SQRT[class].1(&mut random), plainly)?;
        } else {
            let (a, b) = HYPOT[class - SQRT.len()].1(&mut random);
            judges.hypot(a, b, plainly)?;
        }
        *counts.entry(class).or_insert(0u64) += 1;
        if (case + 1) % (cases / 10).max(1) == 0 {
            println!("  {} cases, {:.0} s", case + 1, start.elapsed().as_secs_f64());
        }
    }
    for (class, count) in counts {
        let root = class < SQRT.len();
        let name = if root { SQRT[class].0 } else { HYPOT[class - SQRT.len()].0 };
        println!("  {count:>10}  {} {name}", if root { "sqrt " } else { "hypot" });
    }
    println!("{cases} cases, {} of them by bisection too, 0 differences", cases.div_ceil(PLAIN));
    Ok(())
}

fn main() -> ExitCode {
    let numbers = arguments::numbers(&arguments::words(USAGE), [100_000_000, 1]);
    let [cases, seed] = numbers.unwrap_or_else(|problem| arguments::refuse(&problem, USAGE));
    arguments::ended(run(cases, seed).map_err(|problem| format!("DIFFERENCE {problem}")))
}
