//! Asks the library for cylinders with their ends swapped, mirrored, and turned by half a turn.

use checks::random::Random;
use checks::symmetry::{self, Case, MOVES};
use std::collections::BTreeMap;
use std::process::ExitCode;

const USAGE: &str = "usage: symmetry [ACCEPTED [SEED]]
Asks for ACCEPTED accepted cylinders (1000000 unless given), from a seed (1), each moved in every way. Exit code 1 at a
difference.";

/// Of the walked ones, whose verdict takes long, one in this many is judged.
const WALKED: u64 = 100;

fn main() -> ExitCode {
    let words = arguments::words(USAGE);
    let number = |i: usize, unless: u64| {
        words.get(i).map_or(unless, |word| {
            word.parse().unwrap_or_else(|_| arguments::refuse(&format!("{word} is no number"), USAGE))
        })
    };
    let (count, seed) = (number(0, 1_000_000), number(1, 1));
    match run(count, seed) {
        Ok(()) => ExitCode::SUCCESS,
        Err(problem) => {
            println!("DIFFERENCE\n{problem}");
            ExitCode::FAILURE
        }
    }
}

/// What was asked, by a name.
#[derive(Default)]
struct Totals(BTreeMap<String, u64>);

impl Totals {
    fn count(&mut self, what: &str, how_often: u64) {
        *self.0.entry(what.into()).or_default() += how_often;
    }
}

fn run(count: u64, seed: u64) -> Result<(), String> {
    let mut random = Random::new(seed, 6000);
    let (mut accepted, mut walked, mut totals) = (0, 0, Totals::default());
    while accepted < count {
        let case = symmetry::draw(&mut random);
        let told = query(&case, &mut totals)?;
        let Some((distance, waiting)) = told else { continue };
        accepted += 1;
        walked += u64::from(waiting);
        if !waiting || walked % WALKED == 0 {
            verdict(&mut random, &case, distance, &mut totals)?;
        }
    }
    println!("{accepted} accepted cylinders, {walked} walked, each moved in {} ways, 0 differences", MOVES.len());
    for (what, count) in &totals.0 {
        println!("    {count:>9}  {what}");
    }
    Ok(())
}

/// The distance, and whether it was walked; nothing where it is refused.
fn query(case: &Case, totals: &mut Totals) -> Result<Option<(f64, bool)>, String> {
    let told = symmetry::asked(case, case.cylinder);
    for (name, moved, zeros) in MOVES {
        let cylinder = moved(case.cylinder);
        let again = symmetry::asked(case, cylinder);
        if !symmetry::same(&told, &again, zeros) {
            return Err(format!("  {case:?}\n  {told:?}\n  {name}: {again:?}"));
        }
        totals.count("the sign of a zero differs", u64::from(!symmetry::same(&told, &again, false)));
    }
    totals.count("refused, each moved in the same ways", u64::from(told.is_err()));
    let Ok(hit) = told else { return Ok(None) };
    totals.count(symmetry::direction(&case.cylinder), 1);
    totals.count("cut", u64::from(hit.cut));
    Ok(Some((hit.hit.distance, hit.waiting > 0)))
}

fn verdict(random: &mut Random, case: &Case, distance: f64, totals: &mut Totals) -> Result<(), String> {
    let clearance = symmetry::clearance(random, &case.cylinder, distance);
    let told = jorghipa::bare::verdict_cylinder(&case.section, case.cylinder, clearance);
    for (name, moved, _) in MOVES {
        let again = jorghipa::bare::verdict_cylinder(&case.section, moved(case.cylinder), clearance);
        if told != again {
            return Err(format!("  {case:?}, clearance {clearance:?}\n  {told:?}\n  {name}: {again:?}"));
        }
    }
    let outcome = told.map_or("refused", |collision| if collision { "collision" } else { "clear" });
    totals.count(&format!("verdict {outcome}"), 1);
    Ok(())
}
