//! Diameters in the place of radii.

use super::{Numbered, Warning};
use crate::verdict::{Verdict, judged};
use crate::{Row, verdict};
use jorghipa::{Section, Vertex};

/// A larger radius turns more than 800 mm across, as few lathes do.
const SWING: f64 = 400.0;

/// A question, as nothing in a section says whether it is meant.
pub fn diameters(vertices: &[Numbered], rows: &[Row]) -> Option<Warning> {
    let widest = vertices.iter().map(|(_, v)| v.radius).fold(0.0, f64::max);
    let reason = if widest > SWING {
        format!("the radius reaches {widest} mm, which turns {} mm across", 2.0 * widest)
    } else if halved_would_do(vertices, rows) {
        "most bodies overlap the section, and with its radii halved none would".to_string()
    } else {
        return None;
    };
    let text = format!("are these diameters? {reason}; the library takes radii");
    Some(Warning { kind: "diameters", records: Vec::new(), text })
}

/// Whether at least two bodies and half of all overlap, and none if the section's radii are halved.
fn halved_would_do(vertices: &[Numbered], rows: &[Row]) -> bool {
    let accepted: Vec<&Row> = rows.iter().filter(|row| row.answer.is_ok()).collect();
    let overlaps = |row: &&&Row| row.answer.is_ok_and(|told| told.verdict == Verdict::Overlap);
    let count = accepted.iter().filter(overlaps).count();
    if count < 2 || 2 * count < accepted.len() {
        return false;
    }
    let halved = vertices.iter().map(|(_, v)| Vertex { z: v.z, radius: v.radius / 2.0 }).collect();
    let Ok(section) = Section::new(halved) else { return false };
    let apart = |row: &&Row| judged(&section, row.body, verdict::CLEARANCE).is_ok_and(|told| told.gap().is_some());
    accepted.iter().all(apart)
}

#[cfg(test)]
mod tests {
    use crate::warnings::tests::{kinds, of_store};

    #[test]
    fn a_wide_swing() {
        let disc = |radius: f64| kinds(&[[0.0, radius], [90.0, radius], [90.0, 0.0], [0.0, 0.0]]);
        assert_eq!((disc(400.5), disc(400.0)), (vec!["diameters"], vec![]));
    }

    /// A bar of radius 15 whose section has 30, and two tools beside it.
    #[test]
    fn bodies_in_the_section() {
        let bar = [[0.0, 30.0], [90.0, 30.0], [90.0, 0.0], [0.0, 0.0]];
        let (tool, ball) = ((3, [20.0, 25.0, 17.0, 40.0]), (2, [20.0, 0.0, 50.0, 4.0]));
        assert_eq!(of_store(&bar, &[tool, ball], ""), [("diameters", vec![])]);
        // One alone may be a mistake of its own; one that overlaps half the radius too; most stand clear.
        let (deep, clear) = ((3, [20.0, 25.0, 14.0, 40.0]), (3, [20.0, 25.0, 33.0, 40.0]));
        for bodies in [&[tool][..], &[tool, ball, deep], &[tool, ball, clear, clear, clear]] {
            assert_eq!(of_store(&bar, bodies, ""), [], "{bodies:?}");
        }
    }
}
