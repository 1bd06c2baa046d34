//! Runs the verified listing program and the reference on the same stores and counts differences.

use listing_ref::listing;
use listing_ref::running::run;
use listing_ref::stores::{S, Stores, example, in_order, longest};

const USAGE: &str = "usage: compare_listings PROGRAM [COUNT [SEED]]
Runs PROGRAM and the reference on named stores and on COUNT generated ones (2000 unless given), from SEED (1).
Exit code 1 at a difference.";

/// 01's example, its lengths, every single-bit flip of the example, and the largest stores and listings.
fn named() -> Vec<Vec<u8>> {
    let mut stores = vec![example(), Vec::new(), longest()];
    for length in [1, 39, 40, 41, 80, 20_440, 20_479, 20_480, 20_481, 20_519, 20_520, 20_521, 100_000, 100_001] {
        stores.push(vec![0; length]);
    }
    let small = in_order(&S, &[(2, [0.0, 0.0, 30.0, 4.0])]);
    for store in [example(), small] {
        for bit in 0..store.len() * 8 {
            let mut flipped = store.clone();
            flipped[bit / 8] ^= 1 << (bit % 8);
            stores.push(flipped);
        }
    }
    let bodies: Vec<_> = (0..508).map(|i| (2 + i % 2, [i as f64 * 0.1, 100.0, 1.0, 300.0])).collect();
    stores.push(in_order(&S[..3], &bodies));
    stores.push(in_order(&vec![S[0]; 256], &bodies[..255]));
    stores.push(in_order(&vec![S[0]; 257], &bodies[..254]));
    stores.push(in_order(&vec![S[0]; 511], &[]));
    stores
}

fn main() {
    let words = arguments::words(USAGE);
    let Some((program, rest)) = words.split_first() else { arguments::refuse("PROGRAM is missing", USAGE) };
    let numbers = arguments::numbers(rest, [2_000, 1]);
    let [count, seed] = numbers.unwrap_or_else(|problem| arguments::refuse(&problem, USAGE));
    let mut generated = Stores::new(seed);
    let mut stores = named();
    for i in 0..count {
        let store = generated.store();
        stores.push(if i % 2 == 0 { store } else { generated.damaged(store) });
    }
    let (mut differences, mut longest) = (0, 0);
    let mut answers = std::collections::BTreeMap::new();
    for (i, store) in stores.iter().enumerate() {
        let expected = listing(store);
        let piece = if i % 16 == 0 { 7 } else { 1 << 16 };
        let got = run(program, store, piece, USAGE);
        longest = longest.max(expected.len());
        *answers.entry(kind_of(&expected)).or_insert(0) += 1;
        if got != expected.as_bytes() {
            differences += 1;
            let path = std::env::temp_dir().join(format!("differs-{i}.store"));
            std::fs::write(&path, store).unwrap();
            println!("differs: {}\n{expected}---\n{}", path.display(), String::from_utf8_lossy(&got));
            if differences > 5 {
                break;
            }
        }
    }
    println!("{answers:?}");
    println!("longest listing {longest} bytes");
    println!("{} stores, {differences} differences", stores.len());
    std::process::exit(i32::from(differences > 0));
}

/// `listed`, or the refusal's number.
fn kind_of(text: &str) -> String {
    match text.strip_prefix("refused ") {
        Some(rest) => rest.split(' ').next().unwrap().to_string(),
        None if text.contains(" refused ") => "listed, with a refused body".to_string(),
        None => "listed".to_string(),
    }
}
