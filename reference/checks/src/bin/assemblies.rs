//! Compares request (iii)'s call with the table and with single verdicts: every pair of numbers, then inputs from a seed.

use checks::assembly::{Assembly, answers, called, expected, lists};
use checks::generate;
use checks::random::Random;
use std::collections::BTreeMap;
use std::process::ExitCode;
use table::Body;

const USAGE: &str = "usage: assemblies [SEED [COUNT]]
Compares any-hit, in C and in the wrapper, with the table of refusals and the verdict on each body: every pair of numbers that
could be given in the wrong order, beside hits before and after them, then COUNT (100000) assemblies from SEED (1).
Exit code 1 at a difference.";

const S: [f64; 8] = [0.0, 10.0, 20.0, 10.0, 20.0, 0.0, 0.0, 0.0];
const FAR: Body = Body::Sphere([100.0, 0.0, 10.0, 1.0]);
const HIT: Body = Body::Box([5.0, 30.0, 2.0, 11.0]);

/// Good, and 4, 5, 9, 10, 11.
const BODIES: [Option<Body>; 6] = [
    None,
    Some(Body::Sphere([f64::NAN, 0.0, 0.0, -1.0])),
    Some(Body::Box([5.0, 4.0, 2e6, 0.0])),
    Some(Body::Cylinder([0.0, 0.0, 0.0, 1.0, 0.0, 1.0, -1.0])),
    Some(Body::Box([5.0, 4.0, 0.0, 1.0])),
    Some(Body::Cylinder([0.0, 0.0, 0.0, 1.0, 0.0, 1.0, 1.0])),
];

/// Good, and 1, 2, 3, 4, 5, 6.
fn sections() -> Vec<Vec<f64>> {
    let with = |i: usize, x: f64| {
        let mut section = S.to_vec();
        section[i] = x;
        section
    };
    let wrong = [S[..7].to_vec(), S[..4].to_vec(), vec![1.0; 514], with(3, f64::NAN), with(0, 2e6), with(5, -1.0)];
    [vec![S.to_vec()], wrong.to_vec()].concat()
}

fn check(assembly: &Assembly) -> Result<Result<bool, u32>, String> {
    let expected = expected(assembly);
    match answers(assembly) == [expected; 2] {
        true => Ok(expected),
        false => Err(format!("DIFFERENCE\n  {assembly:?}\n  expected {expected:?}, port {:?}", answers(assembly))),
    }
}

/// What C alone can be given: a count of numbers that is not seven a body, and other kinds.
fn check_lists(assembly: &Assembly) -> Result<(), String> {
    let (kinds, numbers) = lists(assembly);
    let call = |kinds: &[u32], numbers: &[f64]| called(&assembly.section, kinds, numbers, assembly.clearance);
    let mut other = kinds.clone();
    for kind in [0, 1, 5, u32::MAX] {
        other.iter_mut().rev().take(1).for_each(|last| *last = kind);
        let numbered = if kinds.is_empty() || kinds.len() > 64 { expected(assembly) } else { Err(14) };
        if call(&other, &numbers) != numbered {
            return Err(format!("DIFFERENCE\n  kind {kind} at the end of {assembly:?}"));
        }
    }
    for wrong in
        [numbers.len() + 1, numbers.len() + 7, numbers.len().saturating_sub(1), numbers.len().saturating_sub(7)]
    {
        let mut resized = numbers.clone();
        resized.resize(wrong, 0.0);
        if wrong != numbers.len() && call(&other, &resized) != Err(1) {
            return Err(format!("DIFFERENCE\n  {wrong} numbers of {assembly:?}"));
        }
    }
    Ok(())
}

/// Every section, clearance and count; two bad bodies of every kind, first and last or side by side; a hit nowhere, first, last.
fn pairs(counts: &mut BTreeMap<String, u64>) -> Result<(), String> {
    for section in sections() {
        for clearance in [1.0, f64::NAN, -2e6] {
            for count in [0, 1, 2, 3, 63, 64, 65, 66] {
                for places in [[0, count.max(1) - 1], [count / 2, count / 2 + 1], [count.max(1) - 1, 0]] {
                    for (one, other) in BODIES.iter().flat_map(|one| BODIES.iter().map(move |other| (one, other))) {
                        for hit in [None, Some(0), Some(count / 2), Some(count.max(1) - 1)] {
                            let mut bodies = vec![FAR; count];
                            hit.and_then(|i| bodies.get_mut(i)).into_iter().for_each(|body| *body = HIT);
                            for (place, bad) in places.into_iter().zip([one, other]) {
                                bodies.get_mut(place).zip(*bad).into_iter().for_each(|(body, bad)| *body = bad);
                            }
                            let assembly = Assembly { section: section.clone(), bodies, clearance };
                            count_in(counts, check(&assembly)?);
                            check_lists(&assembly)?;
                        }
                    }
                }
            }
        }
    }
    Ok(())
}

fn count_in(counts: &mut BTreeMap<String, u64>, answer: Result<bool, u32>) {
    let outcome = match answer {
        Ok(true) => "collision".into(),
        Ok(false) => "clear".into(),
        Err(number) => format!("refused {number:2}"),
    };
    *counts.entry(outcome).or_default() += 1;
}

fn compare(seed: u64, count: u64) -> Result<(), String> {
    let mut counts = BTreeMap::new();
    pairs(&mut counts)?;
    println!("pairs: {} assemblies", counts.values().sum::<u64>());
    let mut random = Random::new(seed, 300);
    for _ in 0..count {
        let assembly = generate::assembly(&mut random);
        count_in(&mut counts, check(&assembly)?);
        check_lists(&assembly)?;
    }
    println!("seed {seed}: {count} assemblies");
    counts.iter().for_each(|(outcome, count)| println!("    {count:>9}  {outcome}"));
    println!("{} assemblies, 0 differences", counts.values().sum::<u64>());
    Ok(())
}

fn main() -> ExitCode {
    let numbers = arguments::numbers(&arguments::words(USAGE), [1, 100_000]);
    let [seed, count] = numbers.unwrap_or_else(|problem| arguments::refuse(&problem, USAGE));
    arguments::ended(compare(seed, count))
}
