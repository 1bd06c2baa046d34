#![doc = include_str!("../README.md")]
#![warn(missing_docs)]

pub mod bare;
mod hits;
pub mod raw;
#[cfg(feature = "records")]
pub mod records;
mod refusal;
mod section;
mod shapes;
mod stores;

pub use hits::*;
pub use refusal::Refusal;
pub use section::{Section, pair, pair_convex};
pub use shapes::*;
pub use stores::*;

/// The version of this crate, and of the library that it was written for.
pub const VERSION: &str = env!("CARGO_PKG_VERSION");

/// The version of the linked archive: 10,000 major + 100 minor + patch.
pub fn version() -> u32 {
    // SAFETY: no pointer is handed over.
    unsafe { raw::jorghipa_version() }
}

/// The f64 nearest the root, ties to even.
pub fn sqrt(x: f64) -> f64 {
    // SAFETY: no pointer is handed over.
    unsafe { raw::jorghipa_sqrt(x) }
}

/// The f64 nearest the root of a^2 + b^2, ties to even.
pub fn hypot(a: f64, b: f64) -> f64 {
    // SAFETY: no pointer is handed over.
    unsafe { raw::jorghipa_hypot(a, b) }
}
