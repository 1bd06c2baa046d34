//! Compares the library's call for chuck and work together with the two single queries of the judge.

use checks::pairs::{self, KINDS, Together};
use checks::random::Random;
use std::collections::BTreeMap;
use std::process::ExitCode;

const USAGE: &str = "usage: pairs [PAIRS [SEED]]
Compares PAIRS pairs of each kind of body (100000 unless given), from a seed (1). Exit code 1 at a difference.";

fn main() -> ExitCode {
    let numbers = arguments::numbers(&arguments::words(USAGE), [100_000, 1]);
    let [count, seed] = numbers.unwrap_or_else(|problem| arguments::refuse(&problem, USAGE));
    arguments::ended(compare(count, seed).map_err(|problem| format!("DIFFERENCE\n{problem}")))
}

fn compare(count: u64, seed: u64) -> Result<(), String> {
    pairs::foreign()?;
    for kind in KINDS {
        let mut random = Random::new(seed, 5000 + 100 * kind as u64);
        let mut outcomes = BTreeMap::<String, u64>::new();
        let (mut ties, mut cut) = (0, 0);
        for _ in 0..count {
            let pair = pairs::draw(&mut random, kind);
            let (expected, port) = (pairs::expected(&pair), pairs::port(&pair));
            if !port.same(&expected) {
                return Err(format!("  {pair:?}\n  expected {expected:?}\n  port     {port:?}"));
            }
            if let Together::Won(work, _, counts) = &expected {
                let swapped = pairs::Pair { chuck: pair.work.clone(), work: pair.chuck.clone(), ..pair.clone() };
                let (expected, told) = (pairs::expected(&swapped), pairs::port(&swapped));
                if !told.same(&expected) {
                    return Err(format!("  {swapped:?}, exchanged\n  expected {expected:?}\n  port     {told:?}"));
                }
                // Exchanged, the same section wins; at a tie the other one, which is then the chuck.
                ties += u64::from(matches!(&told, Together::Won(other, ..) if other == work));
                cut += u64::from(counts[2]);
            }
            *outcomes.entry(expected.outcome()).or_default() += 1;
        }
        println!("{kind:?}: {count} pairs, {ties} ties, {cut} winners cut");
        for (outcome, count) in &outcomes {
            println!("    {count:>9}  {outcome}");
        }
    }
    println!("{} pairs, 0 differences", count * KINDS.len() as u64);
    Ok(())
}
