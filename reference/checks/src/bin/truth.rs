//! Compares reported distances of points, spheres and cylinders across the spindle with exact ones.

use checks::random::Random;
use checks::truth::draw::{self, Drawn, Walk};
use checks::truth::walks;
use checks::truth::worst::Worst;
use checks::truth::{place, points};
use std::process::ExitCode;

const USAGE: &str = "usage: truth [POINTS [WALKS [SEED]]]
Compares POINTS points and spheres (10000000 unless given) and WALKS walks (1000000) from a seed (1) with exact distances, and
prints the worst share of each bound and its input. Exit code 1 where a bound is exceeded.";

/// One place in this many is measured in whole numbers too.
const TWICE: u64 = 1000;

fn main() -> ExitCode {
    let numbers = arguments::numbers(&arguments::words(USAGE), [10_000_000, 1_000_000, 1]);
    let [points, walks, seed] = numbers.unwrap_or_else(|problem| arguments::refuse(&problem, USAGE));
    arguments::ended(all_points(points, seed).and_then(|()| all_walks(walks, seed)))
}

/// The names of the bounds, first for all numbers up to the limit, then within a metre.
fn names() -> Vec<String> {
    let metre = points::BOUNDS.iter().map(|(name, exponent)| format!("{name}, metre: 2^{}", exponent - 10));
    points::BOUNDS.iter().map(|(name, exponent)| format!("{name}: 2^{exponent}")).chain(metre).collect()
}

fn all_points(count: u64, seed: u64) -> Result<(), String> {
    let mut random = Random::new(seed, 7000);
    let (mut worst, mut done, mut nowhere) = (Worst::new(names()), 0, 0);
    while done < count {
        let Some(drawn) = draw::point(&mut random) else { continue };
        done += 1;
        nowhere += u64::from(drawn.distance == f64::INFINITY);
        note_point(&drawn, &mut worst)?;
        if done % TWICE == 0 && !place::agree(&drawn.section, drawn.told().place) {
            return Err(format!("the two arithmetics disagree\n  {}", drawn.query.line()));
        }
    }
    println!("{count} points and spheres, {nowhere} of them beside no edge that counts, 0 bounds exceeded");
    println!("how often, the worst share, the bound\n{worst}");
    Ok(())
}

fn note_point(drawn: &Drawn, worst: &mut Worst) -> Result<(), String> {
    for found in points::judge(&drawn.told(), true) {
        let bound = found.bound + if found.metre { points::BOUNDS.len() } else { 0 };
        if found.exceeded {
            let (name, line) = (worst.name(bound), drawn.query.line());
            return Err(format!("EXCEEDED {name}: {} times\n  {line}\n  {:?}", found.share, drawn.told()));
        }
        worst.note(bound, found.share, || drawn.query.line());
    }
    Ok(())
}

fn all_walks(count: u64, seed: u64) -> Result<(), String> {
    let mut random = Random::new(seed, 7001);
    let mut worst = Worst::new(walks::BOUNDS.map(String::from).to_vec());
    let (mut done, mut cut) = (0, 0);
    while done < count {
        let Some(drawn) = draw::walk(&mut random) else { continue };
        done += 1;
        cut += u64::from(drawn.cut);
        note_walk(&drawn, &mut worst)?;
    }
    println!("{count} walks, {cut} of them cut, 0 bounds exceeded\nhow often, the worst share, the bound\n{worst}");
    Ok(())
}

fn note_walk(drawn: &Walk, worst: &mut Worst) -> Result<(), String> {
    for found in walks::judge(&drawn.told(), 1.0, [0, 1, 2].map(|bound| worst.share(bound))) {
        if found.exceeded {
            let (name, line) = (worst.name(found.bound), drawn.query.line());
            return Err(format!("EXCEEDED {name}: {} times\n  {line}\n  {:?}", found.share, drawn.told()));
        }
        worst.note(found.bound, found.share, || drawn.query.line());
    }
    Ok(())
}
