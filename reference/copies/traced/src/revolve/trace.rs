//! What the traced copy notes while a cylinder is measured. Added; not part of the published text.

use super::probe::Hit;
use super::*;
use std::cell::Cell;

/// Boxes measured, the most pieces that waited, and whether the walk was cut.
#[derive(Clone, Copy, Debug, PartialEq, Eq)]
pub struct Trace {
    pub boxes: u32,
    pub waiting: u32,
    pub cut: bool,
}

thread_local! {
    static TRACE: Cell<Trace> = const { Cell::new(Trace { boxes: 1, waiting: 0, cut: false }) };
    static WITNESS: Cell<(f64, f64)> = const { Cell::new((0.0, 0.0)) };
}

/// The end of a walk. A cylinder that needs none keeps one box, nothing waiting, uncut.
pub fn walked(boxes: u32, waiting: usize, cut: bool) {
    TRACE.set(Trace { boxes, waiting: waiting as u32, cut });
}

/// The pair that is about to be lifted.
pub fn lifted(z: f64, radius: f64) {
    WITNESS.set((z, radius));
}

/// `query_cylinder`, with the witness as a pair and the walk's counts.
pub fn cylinder(solid: &RevolvedSolid, cylinder: Cylinder) -> Option<(Hit, Trace)> {
    TRACE.set(Trace { boxes: 1, waiting: 0, cut: false });
    let hit = solid.query_cylinder(cylinder)?;
    Some(((hit.distance, WITNESS.get()), TRACE.get()))
}
