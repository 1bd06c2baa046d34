//! Axes that are swapped, and inches.

use super::axis::open;
use super::{AXIS, Numbered, Warning};
use jorghipa::Vertex;

/// The largest less the smallest.
fn span(numbers: impl Iterator<Item = f64> + Clone) -> f64 {
    numbers.clone().fold(f64::NEG_INFINITY, f64::max) - numbers.fold(f64::INFINITY, f64::min)
}

/// Closed at z 0 and not at radius 0, or a disc ten times as wide as it is long.
pub fn swapped(vertices: &[Numbered]) -> Option<Warning> {
    let exchanged: Vec<Numbered> =
        vertices.iter().map(|&(record, v)| (record, Vertex { z: v.radius, radius: v.z })).collect();
    let closes =
        open(vertices).is_some() && open(&exchanged).is_none() && exchanged.iter().all(|(_, v)| v.radius >= -AXIS);
    let length = span(vertices.iter().map(|(_, v)| v.z));
    let widest = vertices.iter().map(|(_, v)| v.radius).fold(0.0, f64::max);
    let reason = if closes {
        "with z and radius exchanged it would be closed to the axis".to_string()
    } else if widest > 10.0 * length {
        format!("its radius reaches {widest} over a length of {length}")
    } else {
        return None;
    };
    let text = format!("z and radius may be swapped: {reason}; a vertex is z first, then radius");
    Some(Warning { kind: "swapped", records: vertices.iter().map(|(record, _)| *record).collect(), text })
}

/// Small, and in sixty-fourths that no rule in mm has; or all of it within half an inch.
pub fn inches(vertices: &[Numbered]) -> Option<Warning> {
    let numbers = || vertices.iter().flat_map(|(_, v)| [v.z, v.radius]);
    let size = span(vertices.iter().map(|(_, v)| v.z)).max(numbers().skip(1).step_by(2).fold(0.0, f64::max));
    let mut fractions: Vec<f64> =
        numbers().filter(|x| (x * 64.0).fract() == 0.0 && (x * 20.0).fract() != 0.0).collect();
    fractions.sort_by(f64::total_cmp);
    fractions.dedup();
    let reason = match fractions.as_slice() {
        _ if size <= 12.7 => format!("the whole section lies within {size} mm"),
        [a, b, ..] if size <= 50.0 => format!("numbers such as {a} and {b} in a section of {size} mm"),
        _ => return None,
    };
    let text = format!("coordinates look like inches: {reason}; the library takes mm, 25.4 to the inch");
    Some(Warning { kind: "inches", records: Vec::new(), text })
}

#[cfg(test)]
mod tests {
    use crate::warnings::tests::{QUIET, kinds};

    #[test]
    fn swapped_axes() {
        // A bar of radius 10 from z 50 to z 250, radius first.
        assert_eq!(kinds(&[[10.0, 50.0], [10.0, 250.0], [0.0, 250.0], [0.0, 50.0]]), ["not-closed", "swapped"]);
        // From z 0: closed both ways, but a disc of radius 250 and length 10.
        assert_eq!(kinds(&[[10.0, 0.0], [10.0, 250.0], [0.0, 250.0], [0.0, 0.0]]), ["swapped"]);
        assert_eq!(kinds(&[[0.0, 150.0], [20.0, 150.0], [20.0, 0.0], [0.0, 0.0]]), QUIET);
    }

    #[test]
    fn inch_sizes() {
        // Two inches by three quarters, in inches; in sixteenths; and the first in mm.
        assert_eq!(kinds(&[[0.0, 0.75], [2.0, 0.75], [2.0, 0.0], [0.0, 0.0]]), ["inches"]);
        assert_eq!(kinds(&[[0.0, 4.4375], [14.125, 4.4375], [14.125, 0.0], [0.0, 0.0]]), ["inches"]);
        assert_eq!(kinds(&[[0.0, 19.05], [50.8, 19.05], [50.8, 0.0], [0.0, 0.0]]), QUIET);
        assert_eq!(kinds(&[[0.0, 12.25], [20.5, 12.25], [20.5, 0.0], [0.0, 0.0]]), QUIET);
    }
}
