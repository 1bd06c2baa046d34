//! Request (xii)'s test load from a seed, written from its text: whole-number arithmetic up to the last division.

use listing_ref::stores::in_order;
use std::fmt::Write;

const SPHERES: usize = 32;

/// The state, a u64.
struct Draws(u64);

impl Draws {
    /// One step: xored with itself shifted left 13, then right 7, then left 17. High bits are dropped.
    fn step(&mut self) -> u64 {
        self.0 ^= self.0 << 13;
        self.0 ^= self.0 >> 7;
        self.0 ^= self.0 << 17;
        self.0
    }

    fn coordinate(&mut self) -> f64 {
        let whole = (self.step() % 2_097_153) as i64 - 1_048_576;
        whole as f64 / 64.0
    }

    /// Without its sign.
    fn radius(&mut self) -> f64 {
        self.coordinate().abs()
    }
}

/// The store's bytes, or 20 for seed 0, then 21 for a vertex count out of range.
pub fn load(seed: u64, vertices: u64) -> Result<Vec<u8>, u32> {
    if seed == 0 {
        return Err(20);
    }
    if !(3..=256).contains(&vertices) {
        return Err(21);
    }
    let mut draws = Draws(seed);
    let vertices: Vec<[f64; 4]> = (0..vertices).map(|_| [draws.coordinate(), draws.radius(), 0.0, 0.0]).collect();
    let spheres: Vec<(u32, [f64; 4])> = (0..SPHERES)
        .map(|_| (2, [draws.coordinate(), draws.coordinate(), draws.coordinate(), draws.radius()]))
        .collect();
    Ok(in_order(&vertices, &spheres))
}

/// What the program prints of its input: two little-endian u64, any other length counting as seed 0.
pub fn printed(input: &[u8]) -> String {
    let (seed, vertices) = match input.as_array::<16>() {
        Some(words) => {
            let word = |at: usize| u64::from_le_bytes(words[at..at + 8].try_into().unwrap());
            (word(0), word(8))
        }
        None => (0, 0),
    };
    match load(seed, vertices) {
        Ok(bytes) => {
            let mut line = String::with_capacity(2 * bytes.len() + 1);
            bytes.iter().for_each(|byte| write!(line, "{byte:02x}").unwrap());
            line + "\n"
        }
        Err(number) => format!("refused {number}\n"),
    }
}

/// The input that asks for this load.
pub fn input(seed: u64, vertices: u64) -> Vec<u8> {
    [seed.to_le_bytes(), vertices.to_le_bytes()].concat()
}

#[cfg(test)]
mod tests {
    use super::*;
    use listing_ref::listing;

    #[test]
    fn the_states_of_seed_1() {
        let mut draws = Draws(1);
        let states: [u64; 3] = std::array::from_fn(|_| draws.step());
        assert_eq!(states, [0x4082_2041, 0x1000_4106_0c01_1441, 0x9b1e_842f_6e86_2629]);
    }

    #[test]
    fn refusals() {
        assert_eq!(load(0, 2), Err(20));
        for vertices in [0, 2, 257, 1 << 63] {
            assert_eq!(load(1, vertices), Err(21));
        }
        for length in [0, 15, 17, 1_000_000] {
            assert_eq!(printed(&vec![1; length]), "refused 20\n");
        }
        assert_eq!(printed(&input(5, 2)), "refused 21\n");
    }

    #[test]
    fn every_load_lists_without_a_refusal() {
        for (seed, vertices) in [(1, 3), (42, 3), (u64::MAX, 256), (1 << 63, 100)] {
            let bytes = load(seed, vertices).unwrap();
            assert_eq!(bytes.len() as u64, 40 * (vertices + 33));
            let text = listing(&bytes);
            assert!(text.starts_with(&format!("section {vertices}\n")) && !text.contains("refused"));
            assert_eq!(text.lines().count(), 33);
        }
    }

    #[test]
    fn coordinates_lie_on_the_grid() {
        let mut draws = Draws(7);
        for _ in 0..100_000 {
            let x = draws.coordinate();
            assert!(x.abs() <= 16_384.0 && (x * 64.0).fract() == 0.0 && x.to_bits() != (-0.0f64).to_bits());
        }
    }
}
