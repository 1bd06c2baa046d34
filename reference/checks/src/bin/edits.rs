//! Compares the library's edits of a store with those of the reference's editor, byte by byte.

use checks::edits::{self, Held, port, port_verdict, role_number};
use checks::random::Random;
use listing_ref::editor::{Edit, Place, Role, edit};
use listing_ref::{RECORD, listing, verdict};
use std::collections::BTreeMap;
use std::process::ExitCode;

const USAGE: &str = "usage: edits [LISTS [EDITS [SEED]]]
Carries out LISTS lists (400 unless given) of EDITS edits (1000), from a seed (1), by the library and by the reference's
editor, and compares the whole space after each. Exit code 1 at a difference.";

fn main() -> ExitCode {
    let numbers = arguments::numbers(&arguments::words(USAGE), [400, 1_000, 1]);
    let [lists, count, seed] = numbers.unwrap_or_else(|problem| arguments::refuse(&problem, USAGE));
    let mut totals = Totals::default();
    for list in 0..lists {
        if let Err(problem) = compare(&mut Random::new(seed, list), count, &mut totals) {
            println!("DIFFERENCE in list {list}\n{problem}");
            return ExitCode::FAILURE;
        }
    }
    for (outcome, count) in &totals.outcomes {
        println!("    {count:>9}  {outcome}");
    }
    println!("{} operator edits left the other lines of the listing", totals.listed);
    println!("{} verdicts, {} edits, 0 differences", totals.verdicts, totals.outcomes.values().sum::<u64>());
    ExitCode::SUCCESS
}

#[derive(Default)]
struct Totals {
    outcomes: BTreeMap<String, u64>,
    verdicts: u64,
    listed: u64,
}

fn compare(random: &mut Random, count: u64, totals: &mut Totals) -> Result<(), String> {
    let shape = edits::shape(random);
    let mut held = edits::held(random, shape);
    let calm = random.chance(1, 3);
    for _ in 0..count {
        let one = edits::draw(random, &held, calm);
        if random.chance(1, 8) {
            let bad = edits::damaged(random, &held);
            both(random, bad.clone(), &one, totals, "damaged, ")?;
            judged(&bad.space[..bad.length.min(bad.space.len())], totals)?;
        }
        if random.chance(1, 50) {
            odd_bytes(random, &held, &one)?;
        }
        let after = both(random, held.clone(), &one, totals, "")?;
        if one.role == Role::Operator && (held.length < 64 * RECORD || random.chance(1, 32)) {
            lines_stay(&held, &after, &one)?;
            totals.listed += 1;
        }
        if random.chance(1, 16) {
            judged(&after.space[..after.length], totals)?;
        }
        held = after;
    }
    Ok(())
}

/// One edit by the library and by the reference.
fn both(random: &mut Random, before: Held, one: &Edit, totals: &mut Totals, note: &str) -> Result<Held, String> {
    let (mut expected, mut told) = (before.clone(), before);
    let length = expected.length;
    let right = edit(&mut expected.space, length, one);
    expected.length = right.unwrap_or(length);
    let role = role_number(random, one.role);
    let answer = port(&mut told, one, role, &one.bytes);
    if answer != right || told != expected {
        let other = told.space.iter().zip(&expected.space).position(|(a, b)| a != b);
        return Err(format!("  length {length}, {one:?}\n  expected {right:?}, told {answer:?}, first byte {other:?}"));
    }
    let place = if one.place == Place::Add { "add" } else { "replace" };
    let outcome = match right {
        Ok(after) if after > length => "a record more".to_string(),
        Ok(_) => "accepted".to_string(),
        Err(number) => format!("refused {number}"),
    };
    *totals.outcomes.entry(format!("{note}{:?}, {place}: {outcome}", one.role)).or_default() += 1;
    Ok(told)
}

/// Bytes of another count than 40 get 12 before all else, and change nothing.
fn odd_bytes(random: &mut Random, held: &Held, one: &Edit) -> Result<(), String> {
    let wide = [one.bytes, one.bytes].concat();
    for size in [0, 39, 41, 80] {
        for start in [held.clone(), edits::damaged(random, held)] {
            let mut told = start.clone();
            let answer = port(&mut told, one, role_number(random, one.role), &wide[..size]);
            if answer != Err(12) || told != start {
                return Err(format!("  {size} bytes: {answer:?}"));
            }
        }
    }
    Ok(())
}

fn judged(store: &[u8], totals: &mut Totals) -> Result<(), String> {
    totals.verdicts += 1;
    let (right, told) = (verdict(store), port_verdict(store));
    if right == told { Ok(()) } else { Err(format!("  verdict: expected {right:?}, told {told:?}")) }
}

/// After an operator's edit every line of the listing but that of its own record is as before.
fn lines_stay(before: &Held, after: &Held, one: &Edit) -> Result<(), String> {
    let lines = |held: &Held| -> Vec<String> {
        let own = |line: &&str| match one.place {
            Place::Record(k) => !line.starts_with(&format!("{k} ")),
            Place::Add => true,
        };
        listing(&held.space[..held.length]).lines().filter(own).map(String::from).collect()
    };
    let (old, new) = (lines(before), lines(after));
    let added = usize::from(one.place == Place::Add && after != before);
    let same = new.len() == old.len() + added && new[..old.len()] == old[..];
    if same { Ok(()) } else { Err(format!("  {one:?}\n  the listing was {old:?}\n  and is {new:?}")) }
}
