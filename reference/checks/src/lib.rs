//! What the programs share: queries and answers, the judge, the port, and the generators of inputs.

pub mod answer;
pub mod assembly;
pub mod bars;
pub mod bisection;
pub mod edits;
pub mod fixed;
pub mod generate;
pub mod judge;
pub mod lifted;
pub mod moves;
#[cfg(feature = "mpfr")]
pub mod mpfr;
pub mod near;
pub mod pairs;
pub mod port;
pub mod query;
pub mod root_cases;
pub mod scenes;
pub mod shrink;
pub mod symmetry;
pub mod timing;
pub mod truth;
pub mod walk;

pub use random;
