//! The calls on bare lists of numbers, z and radius in turn, for a control that keeps its own lists or has no heap.
//!
//! A list is judged anew at each call. [`crate::Section`] has the same calls on a section that was accepted once.
//!
//! ```
//! use jorghipa::{Aabb, Refusal, bare};
//!
//! let mut space = [0.0; 8];
//! let section = bare::build_section(&[0.0, 10.0, 20.0, 10.0], &mut space)?;
//! assert_eq!(section, [0.0, 10.0, 20.0, 10.0, 20.0, 0.0, 0.0, 0.0]);
//! assert_eq!(bare::aabb(section, Aabb { z0: 25.0, z1: 30.0, r0: 0.0, r1: 5.0 })?.distance, 5.0);
//! # Ok::<(), Refusal>(())
//! ```

mod assemblies;
mod builders;
mod cylinders;
mod distances;
mod lifted;
mod moves;
mod pairs;
mod verdicts;

pub use assemblies::any_hit;
pub use builders::{build_polygon, build_section};
pub use cylinders::cylinder;
pub use distances::{aabb, convex, point, sphere};
pub use lifted::{lifted_cylinder, lifted_point, lifted_sphere};
pub use moves::try_move;
pub use pairs::{pair, pair_convex};
pub use verdicts::{verdict_box, verdict_convex, verdict_cylinder, verdict_sphere, verdict_walk};
