//! Runs the verified load program and the reference on the same inputs, and the verified listing program and its reference on
//! the loads, and counts differences.

use listing_ref::listing;
use listing_ref::running::run;
use load_ref::{input, load, printed};
use random::Random;

const USAGE: &str = "usage: compare_loads LOAD LISTING [COUNT [SEED]]
Runs the programs LOAD and LISTING and their references on named inputs and on COUNT generated ones (2000 unless given), from
SEED (1). Exit code 1 at a difference.";

/// Inputs of every length about 16 and of long ones, and counts about the limits, also behind seed 0.
fn named() -> Vec<Vec<u8>> {
    let mut inputs: Vec<Vec<u8>> = (0..=40).map(|length| vec![7; length]).collect();
    inputs.extend([4096, 65_536, 1_000_000, 1_000_016].map(|length| vec![1; length]));
    for seed in [0, 1, 2, 1 << 32, 1 << 51, 1 << 63, u64::MAX] {
        for vertices in [0, 1, 2, 3, 4, 255, 256, 257, 259, 65_539, (1 << 32) + 3, 1 << 63, (1 << 63) + 3, u64::MAX] {
            inputs.push(input(seed, vertices));
        }
    }
    inputs
}

/// A seed of any size, and mostly a count that is taken.
fn generated(random: &mut Random) -> Vec<u8> {
    let seed = random.bits() >> random.below(64);
    let vertices = if random.chance(1, 20) { random.below(300) } else { 3 + random.below(254) };
    input(seed, vertices as u64)
}

fn main() {
    let words = arguments::words(USAGE);
    let [program, lister, rest @ ..] = &words[..] else { arguments::refuse("LOAD and LISTING are missing", USAGE) };
    let numbers = arguments::numbers(rest, [2_000, 1]);
    let [count, seed] = numbers.unwrap_or_else(|problem| arguments::refuse(&problem, USAGE));
    let mut random = Random::new(seed, 0);
    let mut inputs = named();
    inputs.extend((0..count).map(|_| generated(&mut random)));
    let (mut differences, mut accepted, mut bodies) = (0, 0, 0);
    let mut refused = std::collections::BTreeMap::new();
    for (i, input) in inputs.iter().enumerate() {
        let expected = printed(input);
        let got = run(program, input, if i % 16 == 0 { 7 } else { 1 << 16 }, USAGE);
        if got != expected.as_bytes() {
            differences += 1;
            println!("load differs, input of {} bytes: {:02x?}", input.len(), &input[..input.len().min(16)]);
        }
        if input.len() != 16 || expected.starts_with("refused") {
            *refused.entry(expected).or_insert(0) += 1;
            continue;
        }
        let word = |at: usize| u64::from_le_bytes(input[at..at + 8].try_into().unwrap());
        let store = load(word(0), word(8)).expect("it was printed");
        let lines = listing(&store);
        accepted += 1;
        bodies += lines.lines().count() - 1;
        if lines.contains("refused") || run(lister, &store, 1 << 16, USAGE) != lines.as_bytes() {
            differences += 1;
            println!("listing differs: seed {} vertices {}", word(0), word(8));
        }
    }
    println!("refused: {refused:?}");
    println!("{accepted} loads accepted, {bodies} bodies listed");
    println!("{} inputs, {differences} differences", inputs.len());
    std::process::exit(i32::from(differences > 0));
}
