//! The two builders of a section.

use crate::{Refusal, raw, refusal::accepted};

/// A builder's C function.
type Build = unsafe extern "C" fn(*const f64, usize, *mut f64, usize, *mut usize) -> u32;

/// Runs a builder and hands back the front that it filled.
fn front<'a>(build: Build, points: &[f64], space: &'a mut [f64]) -> Result<&'a [f64], Refusal> {
    let mut kept = 0;
    // SAFETY: both slices are valid for their lengths, and the places are distinct.
    accepted(unsafe { build(points.as_ptr(), points.len(), space.as_mut_ptr(), space.len(), &mut kept) })?;
    Ok(&space[..kept])
}

/// Builds a section of 2 to 254 points, closed to the spindle, in the front of `space`, which needs 2(n + 2) numbers.
/// Radii from -1e-9 up to 0 become 0. Returns that front. Refusals 1 to 8.
pub fn build_section<'a>(points: &[f64], space: &'a mut [f64]) -> Result<&'a [f64], Refusal> {
    front(raw::jorghipa_build_section, points, space)
}

/// Builds a section from a closed polygon in the front of `space`, which needs 2n numbers.
/// Radii from -1e-9 up to 0 become 0. Returns that front. Refusals 1 to 8.
pub fn build_polygon<'a>(points: &[f64], space: &'a mut [f64]) -> Result<&'a [f64], Refusal> {
    front(raw::jorghipa_build_polygon, points, space)
}
