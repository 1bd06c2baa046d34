//! Chuck and work together: the nearer of two sections.

use super::distances;
use crate::{Body, CylinderHit, Refusal, raw};

/// The places of a C call: winner, distance, witness z, witness radius, edge, boxes, waiting, cut.
type Places<'p> =
    (&'p mut u32, &'p mut f64, &'p mut f64, &'p mut f64, &'p mut u32, &'p mut u32, &'p mut u32, &'p mut u32);

fn nearer(call: impl FnOnce(Places) -> u32) -> Result<(bool, CylinderHit), Refusal> {
    let (mut winner, mut boxes, mut waiting, mut cut) = (0, 0, 0, 0);
    let hit =
        distances::hit(|d, wz, wr, edge| call((&mut winner, d, wz, wr, edge, &mut boxes, &mut waiting, &mut cut)))?;
    Ok((winner != 0, CylinderHit { hit, boxes, waiting, cut: cut != 0 }))
}

/// Whether the work is the nearer, and the nearer's hit; the chuck wins an equal distance. Refusals 1 to 6 of the
/// chuck, then 1 to 6 of the work, then of the body 4 and 5, and 9, or 10, or 9 and 11.
pub fn pair(chuck: &[f64], work: &[f64], body: Body) -> Result<(bool, CylinderHit), Refusal> {
    let (kind, numbers) = body.given();
    // SAFETY (here and below): the slices are valid for their lengths, and the places are distinct.
    nearer(|(winner, d, wz, wr, edge, boxes, waiting, cut)| unsafe {
        raw::jorghipa_pair(
            chuck.as_ptr(),
            chuck.len(),
            work.as_ptr(),
            work.len(),
            kind,
            numbers.as_ptr(),
            numbers.len(),
            winner,
            d,
            wz,
            wr,
            edge,
            boxes,
            waiting,
            cut,
        )
    })
}

/// The same of a convex polygon. Refusals 1 to 6 of the chuck, then 1 to 6 of the work, then 1 to 5 of the polygon.
pub fn pair_convex(chuck: &[f64], work: &[f64], convex: &[f64]) -> Result<(bool, CylinderHit), Refusal> {
    nearer(|(winner, d, wz, wr, edge, boxes, waiting, cut)| unsafe {
        raw::jorghipa_pair_convex(
            chuck.as_ptr(),
            chuck.len(),
            work.as_ptr(),
            work.len(),
            convex.as_ptr(),
            convex.len(),
            winner,
            d,
            wz,
            wr,
            edge,
            boxes,
            waiting,
            cut,
        )
    })
}
